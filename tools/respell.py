#!/usr/bin/env python3
"""Brings the repository's own definitions and lemmas to today's spelling, once, after the kit's port script.

A word is in snake case: `keyRecord` becomes `key_record`. A dash stays between the names of two definitions (`length-zeros_of`) and is
an underscore elsewhere (`not_both`). Where a statement said `==`, which is the library's own now, it says `equals`. Names of
src/, generated names and strings keep their spelling. It prints each name and its new one, and refuses names that would fall together.

usage: tools/respell.py [--anyway]    at the top of the repository
"""
import pathlib
import re
import sys

ROOT = pathlib.Path(__file__).resolve().parent.parent
ANTT = sorted(ROOT.glob("crates/*/specs/*.antt")) + sorted(ROOT.glob("crates/*/proofs/**/*.antt"))
RT = sorted(ROOT.glob("crates/*/src/*.rt"))
EDITS = sorted(ROOT.glob("crates/*/must-fail/**/*.edit"))
PAGES = [ROOT / "README.md", *sorted((ROOT / "docs").glob("*.md")), *sorted((ROOT / "host").glob("**/*.md"))]
TOKEN = re.compile(r"[^\s(){}\[\],.;:\"⌜⌝|\\`]+")
HEAD = re.compile(r"^(?:abbrev |unfoldable )?(?:pub )?(?:record |data )?(?:pub )?([^\s:(){}]+)(?: .*)?:")
SEVERAL = re.compile(r"^(?:abbrev |unfoldable )?(?:pub )?((?:[^\s:(){}=.,;]+ )+):\s")
INNER = re.compile(r"^\s+(?:pub )?((?:[^\s:(){}=.,;]+ )+):\s")
EQUALS = re.compile(r"(?<![=<>!])==(?![=>])")
# words of the libraries that a dash may join to a name of ours
STD = set("length take drop map append reverse replicate set get_or sum nil cons zero suc add mul".split())


def lines(path):
    for line in path.read_text(encoding="utf8").split("\n"):
        if not line.lstrip().startswith(("--", "use ", "mod ", "pub mod ")):
            yield line


def defined():
    """Names of definitions, fields and cases, and whether each is a definition of specs/ or a lemma."""
    definitions, others = set(), set()
    for path in ANTT:
        own = definitions if "/specs/" in str(path) else others
        for line in lines(path):
            if m := SEVERAL.match(line):
                own.update(m[1].split())
            elif m := HEAD.match(line) if line[:1] not in (" ", "") else None:
                if not (path.name == "Proof.antt" and m[1].endswith("-spec")):
                    own.add(m[1])
            elif m := INNER.match(line):
                others.update(m[1].split())
    return definitions, others


def snake(word):
    return re.sub(r"(?<=[a-z0-9])([A-Z]+)", lambda m: "_" + m[1].lower(), word)


def respelled(word, definitions):
    parts = word.split("-")
    out = parts[0]
    for before, part in zip(parts, parts[1:]):
        joined = before in definitions | STD and part in definitions | STD
        out += ("-" if joined else "_") + part
    return snake(out) if re.match(r"[a-z]", out) else "_".join(parts)


def ours(word):
    return re.match(r"^[a-z][\w'=-]*$", word) and not re.search(r"_[A-Z]", word) and (re.search(r"[A-Z]", word) or "-" in word)


def clause_lines(text):
    """Each line of a source, and whether it is ghost text."""
    deep = 0
    for line in text.split("\n"):
        ghost = deep > 0 or re.match(r"^\s*(ghost |requires|ensures)", line)
        if ghost and not line.lstrip().startswith("//"):
            deep = max(0, deep + line.count("{") - line.count("}"))
        yield line, bool(ghost)


def words_of(path):
    """The names that live beside one another in a file: of a source, its parameters, fields and what its ghost text says."""
    text = re.sub(r"\"[^\"]*\"|^\s*--.*$", " ", path.read_text(encoding="utf8"), flags=re.M)
    if path.suffix == ".antt":
        # names that are made from the source stand in a path
        return set(TOKEN.findall(re.sub(r"(?<=\w)\.\w+(?=\.)", " ", text)))
    words = set(re.findall(r"\b(\w+): ", text))
    for line, ghost in clause_lines(text):
        if ghost:
            words.update(TOKEN.findall(line))
    return words


def table():
    """Each name of ours and its new one. Where a file has two that would fall together, the lemma gets `_lem`."""
    definitions, others = defined()
    bound, files = set(), []
    for path in ANTT + RT:
        words = words_of(path)
        files.append((path, words))
        bound.update(w for w in words if path.suffix == ".antt" and re.match(r"^[a-z]+[0-9]?[A-Z]\w*$", w))
        if path.suffix == ".rt":
            bound.update(re.findall(r" as ([a-z]+[A-Z]\w*)[,}]", path.read_text(encoding="utf8")))
    names = {w for w in definitions | others if ours(w)} | {w for w in bound if ours(w) and "-" not in w}
    new = {w: respelled(w, definitions) for w in names}
    new = {w: n for w, n in new.items() if n != w}
    bad = []
    for _ in range(2):
        bad = []
        for path, words in files:
            seen = {}
            for w in sorted(words):
                seen.setdefault(new.get(w, w), []).append(w)
            for n, ws in seen.items():
                lemmas = [w for w in ws if "-" in w and w in new]
                if len(ws) - len(lemmas) > 1 or len(lemmas) > 1:
                    bad.append(f"{path.relative_to(ROOT)}: {' '.join(ws)} -> {n}")
                elif len(ws) > 1:
                    new[lemmas[0]] = n + "_lem"
    return new, bad, definitions | others


def turn(text, new):
    """The text with its names respelled; what stands in quotes stays."""
    parts = re.split(r"(\"[^\"]*\")", text)
    return "".join(p if p[:1] == '"' else TOKEN.sub(lambda m: new.get(m[0], m[0]), EQUALS.sub("equals", p)) for p in parts)


def turn_ticked(text, new, defined_names):
    """The same in the backticks of a comment or a page; there also names that the port script respelled."""
    def name(m):
        return new.get(m[0]) or (snake(m[0]) if ours(m[0]) and snake(m[0]) in defined_names else m[0])

    return re.sub(r"`[^`\n]+`", lambda m: TOKEN.sub(name, m[0]), text)


def main():
    new, bad, defined_names = table()
    for line in bad:
        print("falls together:", line)
    if bad and "--anyway" not in sys.argv[1:]:
        sys.exit(1)
    for path in ANTT:
        out = []
        for line in path.read_text(encoding="utf8").split("\n"):
            out.append(turn_ticked(line, new, defined_names) if line.lstrip().startswith("--") else turn(line, new))
        path.write_text("\n".join(out), encoding="utf8")
    for path in RT:
        out = [turn(line, new) if ghost else turn_ticked(line, new, defined_names) if line.lstrip().startswith("//") else line
               for line, ghost in clause_lines(path.read_text(encoding="utf8"))]
        path.write_text("\n".join(out), encoding="utf8")
    for path in EDITS:
        text = path.read_text(encoding="utf8")
        if re.search(r"^file: (specs|proofs)/", text, re.M):
            path.write_text(turn(text, new), encoding="utf8")
    for path in PAGES:
        path.write_text(turn_ticked(path.read_text(encoding="utf8"), new, defined_names), encoding="utf8")
    for word, name in sorted(new.items()):
        print(word, name)


if __name__ == "__main__":
    main()
