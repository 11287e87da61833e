#!/usr/bin/env python3
"""The map of crate `rule` in docs/ARCHITECTURE.md: each theorem, the files of its proof in order, and what each file is for.

What a file stands on is read from its `use` lines, and what it is for from the comment that it opens with.

    scripts/rulemap.py            writes the map
    scripts/rulemap.py --check    writes nothing: says whether the committed map is the one that the files give (the gate runs this)
"""
import pathlib
import re
import sys

ROOT = pathlib.Path(__file__).resolve().parent.parent
PROOFS = ROOT / "crates/rule/proofs"
PAGE = ROOT / "docs/ARCHITECTURE.md"
BEGIN, END = "<!-- rule -->\n", "<!-- end -->"

# The theorems in the order of reading, each group with the file of its statement and what it says.
THEOREMS = [
    (("kept", "format-sound", "unsound_same"), "Rule", "a sound store stays sound under every call; format makes one; an unsound one is never changed by a call"),
    (("refusals",), "Refusals", "what each status leaves behind"),
    (("checked",), "Checked", "status 0 of a method with a MAC means that the MAC is the one its session makes, all 32 bytes"),
    (("counted",), "Counted", "and that the session's MAC counter moved by the call's uses of it"),
    (("nobody_waits",), "NobodyWaits", "what other open sessions have does not change an answer"),
    (("nothing_counts",), "NothingCounts", "nothing counts until a session closes"),
    (("not_both", "first_stands"), "Stands", "the first close stands"),
    (("shuffled",), "Bags", "the same records, though perhaps at other places"),
    (("orders", "orders_apart"), "Orders", "both orders give the same two replies and the same records"),
    (("literally",), "Literally", "pendings are carried out by rising handle and freed, then the session is sealed"),
    (("congruence",), "Congruence", "an answer depends on the records, not on their places"),
    (("never_again",), "NeverAgain", "a handle once given is not given again"),
]


def files():
    """Each file with those it stands on and what it is for, in the crate's own order."""
    order = re.findall(r"^pub mod (\w+)", (PROOFS / "Lib.antt").read_text(), re.M)
    found = {}
    for name in order:
        text = (PROOFS / f"{name}.antt").read_text()
        below = re.findall(r"^use Rattle\.rule\.proofs\.(\w+)", text, re.M)
        told = re.match(r"((?:-- .*\n)+)", text)
        if not told:
            sys.exit(f"rulemap: {name}.antt does not open with a comment")
        words = " ".join(line[3:].strip() for line in told[1].splitlines())
        found[name] = (sorted(set(below), key=order.index), words, text)
    return found


def home(theorem, found):
    """The file that proves a theorem: `kept : Kept`, or where its statement has no name of its own the file that has it."""
    statement = "".join(w.capitalize() for w in re.split("[-_]", theorem))
    for end in (rf"{statement}$", ""):
        for name, (_, _, text) in found.items():
            if re.search(rf"^pub {re.escape(theorem)} : ?{end}", text, re.M):
                return name
    sys.exit(f"rulemap: no file of crates/rule/proofs proves {theorem}")


def needs(name, found, seen):
    """A file behind all that it stands on."""
    for below in found[name][0]:
        if below not in seen:
            needs(below, found, seen)
    if name not in seen:
        seen.append(name)
    return seen


def written():
    """The map as text."""
    found = files()
    out, listed = ["| theorem | file | what it is for |", "|---|---|---|"], []
    for theorems, statement, says in THEOREMS:
        if not (ROOT / f"crates/rule/specs/{statement}.antt").exists():
            sys.exit(f"rulemap: crates/rule/specs/{statement}.antt is not there")
        own = []
        for t in theorems:
            needs(home(t, found), found, own)
        new = [n for n in own if n not in listed]
        above = [n for n in own if n in listed and any(n in found[m][0] for m in new)] if new else [home(theorems[0], found)]
        cell = f"{', '.join(f'`{t}`' for t in theorems)} ({statement}): {says}" + (f"; takes up {', '.join(above)}" if above else "")
        for n in new or [""]:
            out.append(f"| {cell} | {n} | {found[n][1] if n else 'proved there'} |")
            cell = ""
        listed += new
    for n in found:
        if n not in listed:
            out.append(f"| beside the theorems | {n} | {found[n][1]} |")
    return "\n".join(out) + "\n"


def main():
    page = PAGE.read_text()
    head, _, tail = page.partition(BEGIN)
    if END not in tail:
        sys.exit(f"rulemap: docs/ARCHITECTURE.md has no {BEGIN.strip()} .. {END}")
    drawn = head + BEGIN + written() + tail[tail.index(END):]
    if "--check" in sys.argv[1:]:
        if drawn != page:
            sys.exit("rulemap: the map of rule is not what its files give: run scripts/rulemap.py and commit docs/ARCHITECTURE.md")
    else:
        PAGE.write_text(drawn)
    print("rulemap: the map of rule is that of its files")


if __name__ == "__main__":
    main()
