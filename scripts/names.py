#!/usr/bin/env python3
"""Whether the names that README.md and docs/ point at exist. The gate runs it.

1. In the tables of docs/PAPER.md each name of a row is a definition of a file of that row, and each file has one of the row's names.
   A file is crates/paper/specs/NAME.antt, or a path; where a row has none, the file that the text above the table names.
2. Everywhere `File.name` is a definition in a File.antt of some crate's specs/ or proofs/, names behind a link to such a file are its
   definitions, and `crate::name` stands in that crate's src/.
3. In the pages of PLAIN every single word in backticks is the name of something: a crate, a file, a function, a definition.
4. Paths and links lead somewhere.
"""
import pathlib
import re
import sys

ROOT = pathlib.Path(__file__).resolve().parent.parent
PAGES = [ROOT / "README.md", *sorted((ROOT / "docs").glob("*.md")), *sorted((ROOT / "host").glob("*.md"))]
PLAIN = {"README.md", "ARCHITECTURE.md", "PAPER.md", "DECISIONS.md", "LANDINGS.md", "RULE.md", "TRUST.md"}
# words in backticks that name nothing of ours
WORDS = set("rt make cc cargo python3 git requires ensures search rw cc omega refl abbrev unfoldable use match const fn λ uses gives ⊥ min max "
            "none true false a b c i k n q s t r x qs chip reply".split())
KEYWORDS = {"pub", "abbrev", "unfoldable", "record", "data", "module", "opaque", "ghost"}
TICKED = re.compile(r"`([^`\n]+)`")
PATH = re.compile(r"(?<![\w/.:*-])((?:crates|docs|host|include|scripts|bench)/[\w./*{},-]+)")


def definitions(path):
    """What a file of definitions or laws defines: names before a colon, of constructors and fields too."""
    found = set()
    for line in path.read_text().splitlines():
        text = line.strip()
        if text.startswith(("--", "use ")) or ":" not in text:
            continue
        head = re.split(r"\s:(?:\s|$)|\s[({]", text, maxsplit=1)[0]
        if "=" in head.split() or "→" in head:
            continue
        found.update(w for w in head.split() if w not in KEYWORDS)
    return found


def code(path):
    """Functions, types, constants, cases and fields of a source."""
    text = path.read_text()
    named = set(re.findall(r"\b(?:fn|struct|enum|trait|const|static)\s+(\w+)", text))
    return named | set(re.findall(r"^\s+(\w+)(?:\([^)]*\))?,$", text, re.M)) | set(re.findall(r"^\s+(\w+):\s", text, re.M))


SPECS = {p: definitions(p) for p in sorted(ROOT.glob("crates/*/specs/*.antt")) + sorted(ROOT.glob("crates/*/proofs/*.antt"))}
SOURCES = {}
for src in sorted(ROOT.glob("crates/*/src/*.rt")):
    SOURCES.setdefault(src.parts[-3], set()).update(code(src))


def files_of(text):
    """The files of definitions that a cell names outside backticks."""
    bare = TICKED.sub(" ", text)
    found = []
    for word in re.findall(r"[\w/]+", bare):
        path = ROOT / (word if word.startswith("crates/") else f"crates/paper/specs/{word}")
        path = path.with_suffix(".antt")
        if path in SPECS:
            found.append(path)
    return found


def paper():
    """The rows of docs/PAPER.md."""
    above = []
    for number, line in enumerate((ROOT / "docs/PAPER.md").read_text().splitlines(), 1):
        if not line.startswith("|"):
            above = (files_of(line) if "file" in line else []) if line.strip() else above
            continue
        cells = [c.strip() for c in line.strip("|").split(" | ")]
        if set(line) <= set("|-") or not TICKED.search(" ".join(cells[1:])):
            continue
        rest = " ".join(cells[1:])
        files = files_of(rest) or above
        names = [n for n in TICKED.findall(rest) if re.fullmatch(r"[A-Za-z][\w'-]*", n)]
        if not files:
            continue
        for name in names:
            if not any(name in SPECS[f] for f in files):
                yield f"docs/PAPER.md:{number}: {name} is not defined in {', '.join(f.stem for f in files)}"
        for f in files:
            if not SPECS[f] & set(names):
                yield f"docs/PAPER.md:{number}: {f.stem} defines none of {', '.join(names)}"


def known():
    """Every name there is."""
    everything = set().union(*SPECS.values(), *SOURCES.values(), SOURCES)
    everything |= {p.stem for p in SPECS} | {p.name for p in ROOT.glob("crates/*")} | {p.name for p in ROOT.glob("host/*")}
    for p in [ROOT / "include/sks.h", *ROOT.glob("host/**/*.rs"), *ROOT.glob("Makefile")]:
        everything |= set(re.findall(r"\w+", p.read_text()))
    return everything


def anchors(path):
    """The headings of a page as a browser's anchors."""
    return {re.sub(r"[^\w\- ]", "", h.strip().lower()).replace(" ", "-")
            for h in re.findall(r"^#+ (.*)$", path.read_text(), re.M)}


def page(path, everything):
    """Names, paths and links of one page."""
    at = path.relative_to(ROOT)
    fenced = False
    for number, line in enumerate(path.read_text().splitlines(), 1):
        fenced ^= line.startswith("```")
        if fenced or line.startswith("    "):
            continue
        for tick in TICKED.findall(line):
            where = f"{at}:{number}: {tick}"
            if m := re.fullmatch(r"([A-Z]\w*)\.([A-Za-z][\w'-]*)", tick):
                if m[1] in {p.stem for p in SPECS} and not any(m[2] in names for p, names in SPECS.items() if p.stem == m[1]):
                    yield f"{where}: no {m[1]}.antt defines it"
            elif m := re.fullmatch(r"(\w+)::(\w+)", tick):
                if m[1] in SOURCES and m[2] not in SOURCES[m[1]]:
                    yield f"{where}: crates/{m[1]}/src has no such name"
            elif at.name in PLAIN and re.fullmatch(r"[A-Za-z_][\w'-]*", tick) and tick not in everything | WORDS:
                yield f"{where}: nothing here has this name"
        # a linked file of definitions, and the names right behind it
        for file, names in re.findall(r"\]\((\S+\.antt)\)((?:,? `[^`]+`)*)", line):
            for name in TICKED.findall(names):
                if name not in SPECS.get((path.parent / file).resolve(), set()):
                    yield f"{at}:{number}: {name} is not defined in {file}"
        for name in PATH.findall(TICKED.sub(lambda m: m[0].replace("`", " "), line)):
            name = name.rstrip(".,")
            if re.search(r"[A-Z]{3,}(?![\w.]*\.md)", name) or "{" in name:
                continue
            if not any(list(ROOT.glob(n.rstrip("/"))) for n in (name, name + ".antt")):
                yield f"{at}:{number}: {name}: no such file"
        for link in re.findall(r"\]\(([^)\s]+)\)", line):
            target, _, anchor = link.partition("#")
            if target.startswith("http"):
                continue
            to = (path.parent / target) if target else path
            if not to.exists():
                yield f"{at}:{number}: {link}: no such file"
            elif anchor and to.suffix == ".md" and anchor not in anchors(to):
                yield f"{at}:{number}: {link}: no such heading"


def main():
    everything = known()
    broken = list(paper()) + [b for p in PAGES for b in page(p, everything)]
    if broken:
        sys.exit("\n".join(f"names: {b}" for b in broken))
    print(f"names: all that {len(PAGES)} pages point at is there")


if __name__ == "__main__":
    main()
