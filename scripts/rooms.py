#!/usr/bin/env python3
"""The rooms: which crate stands in which, and what each may stand on.

Reads crates.txt, refuses a line that breaks the table below, and draws docs/pictures/rooms.svg.

    scripts/rooms.py            draws the picture
    scripts/rooms.py --check    draws nothing: says whether the committed picture is the one that crates.txt gives (the gate runs this)
"""
import pathlib
import sys

ROOT = pathlib.Path(__file__).resolve().parent.parent
CRATES = ROOT / "crates.txt"
PICTURE = ROOT / "docs/pictures/rooms.svg"
PAGE = ROOT / "docs/ARCHITECTURE.md"

# A crate's room is its prefix, but for these.
NAMED = {
    "sha256": "hash", "hmac": "hash",
    "paper": "meaning", "laws": "meaning", "rule": "meaning", "worked": "meaning", "instances": "meaning",
    "issued": "meaning", "issued_worked": "meaning",
    "token": "top", "issuer": "top", "token_c": "top", "issuer_c": "top", "story": "top", "lines": "top", "vectors": "top", "hash_c": "top",
}

# room: the rooms it may stand on, besides itself
RULE = {
    "hash": (),
    "meaning": ("hash",),
    "store": ("hash", "meaning"),
    "call": ("hash", "meaning", "store"),
    "effect": ("hash", "meaning", "store"),
    "sound": ("hash", "meaning", "store"),
    "method": ("hash", "meaning", "store", "call", "effect"),
    "top": ("hash", "meaning", "store", "call", "effect", "sound", "method"),
}

# Of these rooms the others may stand on the crates named here alone: theorems and examples hold no code up.
DOORS = {"meaning": ("paper", "laws")}

# Supplied with the language, for programs.
SUPPLIED = {"check": {"top"}}

SAYS = {
    "hash": "SHA-256 and HMAC",
    "meaning": "document 01 as definitions, and theorems about them",
    "store": "records read, drafted, written",
    "call": "a call taken apart",
    "effect": "what befalls records",
    "sound": "whether a store is sound",
    "method": "the thirteen methods",
    "top": "the token, the issuer's half, programs",
}


def room_of(crate):
    """The room of a crate, or None."""
    prefix = crate.split("_")[0]
    return NAMED.get(crate) or (prefix if prefix in RULE and "_" in crate else None)


def read():
    """crates.txt: each crate with those it stands on, in order."""
    stands = {}
    for line in CRATES.read_text().splitlines():
        if line.strip() and not line.startswith("#"):
            crate, below = line.replace(" staticlib:", ":").split(":")
            stands[crate.strip()] = below.split()
    return stands


def faults(stands):
    """What in crates.txt breaks the table."""
    for crate, below in stands.items():
        room = room_of(crate)
        if room is None:
            yield f"{crate}: no room. Its prefix is none of {', '.join(RULE)}"
            continue
        for other in below:
            if other in SUPPLIED:
                if room not in SUPPLIED[other]:
                    yield f"{crate}: room {room} may not stand on {other}"
                continue
            if other not in stands:
                yield f"{crate}: stands on {other}, which crates.txt does not have"
                continue
            home = room_of(other)
            if home == room:
                continue
            if home not in RULE[room]:
                yield f"{crate}: room {room} may not stand on {other} of room {home}"
            elif room != "top" and home in DOORS and other not in DOORS[home]:
                yield f"{crate}: of room {home} only {' and '.join(DOORS[home])} may be stood on, not {other}"


def depth(node, below):
    """How many layers lie under a node."""
    return max((1 + depth(b, below) for b in below[node]), default=0)


def reduced(below):
    """The same order without the lines that follow from others."""
    def reach(n):
        return set(below[n]).union(*(reach(b) for b in below[n])) if below[n] else set()
    return {n: [b for b in bs if not any(b in reach(o) for o in bs if o != b)] for n, bs in below.items()}


# ---- the picture: rooms by depth, and within a room its crates by depth

WIDE, MARGIN, GAP, BETWEEN = 960, 20, 30, 22
PAD, HEAD, CHIP, STEP, APART, LETTER = 12, 34, 24, 30, 8, 7.9


class Room:
    """A room's crates, row by row from the bottom, and how much space they take."""

    def __init__(self, name, crates, stands):
        self.name = name
        inside = {c: [b for b in stands[c] if b in crates] for c in crates}
        rows = {}
        for c in crates:
            rows.setdefault(depth(c, inside), []).append(c)
        self.rows = [rows[d] for d in sorted(rows, reverse=True)]
        wide = max(sum(self.chip(c) for c in row) + APART * (len(row) - 1) for row in self.rows)
        head = 24 + len(name) * 9.4 + len(SAYS[name]) * 6.6
        self.wide = max(wide, head) + 2 * PAD
        self.high = HEAD + STEP * len(self.rows) + 6

    @staticmethod
    def chip(crate):
        return len(crate) * LETTER + 12

    def draw(self, y):
        self.y, x, wide = y, self.x, self.across
        out = [f'  <rect class="room {self.name}" x="{x:.0f}" y="{y:.0f}" width="{wide:.0f}" height="{self.high}" rx="8"/>',
               f'  <text x="{x + PAD:.0f}" y="{y + 22:.0f}"><tspan class="name">{self.name}</tspan>'
               f'<tspan class="soft" dx="10">{SAYS[self.name]}</tspan></text>']
        for i, row in enumerate(self.rows):
            total = sum(self.chip(c) for c in row) + APART * (len(row) - 1)
            at, top = x + (wide - total) / 2, y + HEAD + STEP * i
            for c in row:
                w = self.chip(c)
                out.append(f'  <rect class="chip" x="{at:.0f}" y="{top:.0f}" width="{w:.0f}" height="{CHIP}" rx="5"/>')
                out.append(f'  <text class="crate" x="{at + w / 2:.0f}" y="{top + 16.5:.1f}">{c}</text>')
                at += w + APART
        return out


def picture(stands):
    """The picture as text."""
    rooms = {}
    for crate in stands:
        rooms.setdefault(room_of(crate), []).append(crate)
    below = {r: sorted({room_of(b) for c in crates for b in stands[c] if b in stands} - {r}, key=list(RULE).index)
             for r, crates in rooms.items()}
    layers = {}
    for r in RULE:
        if r in rooms:
            layers.setdefault(depth(r, below), []).append(r)
    # From the bottom up. A layer shares the page's width; a room that is alone in its layer lies over those it stands on, if there is
    # width enough, so that the way from above to the others is free.
    made = {r: Room(r, rooms[r], stands) for r in rooms}
    ways, over, top = reduced(below), [], max(layers)
    for d in sorted(layers):
        row = [made[r] for r in layers[d]]
        spare = WIDE - 2 * MARGIN - sum(r.wide for r in row) - BETWEEN * (len(row) - 1)
        above = layers.get(d + 1, [])
        bears = [r for r in row if len(above) == 1 and d + 1 < top and r.name in ways[above[0]]]
        if 1 < len(bears) < len(row):
            lack = made[above[0]].wide - sum(r.wide for r in bears) - BETWEEN * (len(bears) - 1)
            more = max(0, min(lack, spare))
            for r in bears:
                r.wide += more / len(bears)
            spare -= more
        x = MARGIN
        for r in row:
            r.x, r.across, r.high = x, r.wide + spare / len(row), max(o.high for o in row)
            x += r.across + BETWEEN
        on = [made[b] for b in ways[row[0].name]]
        if len(row) == 1 and len(on) > 1 and d < top:
            left, right = min(o.x for o in on), max(o.x + o.across for o in on)
            if right - left >= row[0].wide - 1:
                row[0].x, row[0].across = left, right - left
        over.insert(0, row)
    out, y = [], MARGIN
    for row in over:
        for r in row:
            out += r.draw(y)
        y += row[0].high + GAP
    lines = []
    for r, bs in ways.items():
        for b in bs:
            a, z = made[r], made[b]
            left, right = max(a.x, z.x), min(a.x + a.across, z.x + z.across)
            at, top, foot = (left + right) / 2, a.y + a.high, z.y
            lines.append(f'  <path class="way" d="M{at:.0f} {top:.0f} V{foot - 8:.0f}"/>')
            lines.append(f'  <path class="tip" d="M{at - 5:.0f} {foot - 9:.0f} h10 l-5 8 z"/>')
    height = y - GAP + MARGIN
    told = "; ".join(f"{r} stands on {', '.join(bs) or 'nothing'}" for r, bs in below.items())
    return "\n".join([
        f'<svg xmlns="http://www.w3.org/2000/svg" viewBox="0 0 {WIDE} {height:.0f}" width="{WIDE}" height="{height:.0f}" role="img" aria-labelledby="title desc">',
        '  <title id="title">The rooms of the house, and which stands on which</title>',
        f'  <desc id="desc">Drawn from crates.txt by scripts/rooms.py. {told}.</desc>',
        '  <style>',
        '    text { font: 13px system-ui, "Segoe UI", "Helvetica Neue", Arial, "DejaVu Sans", sans-serif; fill: #1f2328 }',
        '    .name { font-weight: 600; font-size: 15px }',
        '    .crate { font: 13px ui-monospace, "SF Mono", Menlo, Consolas, "DejaVu Sans Mono", monospace; text-anchor: middle }',
        '    .soft { fill: #57606a }',
        '    .page { fill: #ffffff }',
        '    .room { stroke-width: 1.2 }',
        '    .chip { fill: #ffffff; stroke: #8c959f }',
        '    .hash, .meaning { fill: #ece5fd; stroke: #6b46c1 }',
        '    .store, .call, .sound, .effect { fill: #ddf0ff; stroke: #0a5fb4 }',
        '    .method { fill: #dcf5e1; stroke: #1a7f37 }',
        '    .top { fill: #fdeedd; stroke: #9a5a00 }',
        '    .way { fill: none; stroke: #57606a; stroke-width: 1.6 }',
        '    .tip { fill: #57606a }',
        '    @media (prefers-color-scheme: dark) {',
        '      text { fill: #e6edf3 }',
        '      .soft { fill: #9da7b1 }',
        '      .page, .chip { fill: #0d1117 }',
        '      .hash, .meaning { fill: #2a1f4d; stroke: #b392f0 }',
        '      .store, .call, .sound, .effect { fill: #10304f; stroke: #6cb6ff }',
        '      .method { fill: #0f3a1d; stroke: #6fdd8b }',
        '      .top { fill: #45290a; stroke: #f0a33f }',
        '      .way { stroke: #9da7b1 }',
        '      .tip { fill: #9da7b1 }',
        '    }',
        '  </style>',
        f'  <rect class="page" width="{WIDE}" height="{height:.0f}"/>',
        *out, *lines, '</svg>', ''])


def main():
    stands = read()
    broken = list(faults(stands))
    page = PAGE.read_text()
    broken += [f"{c}: docs/ARCHITECTURE.md does not name it" for c in stands if f"`{c}`" not in page]
    drawn = picture(stands) if not broken else ""
    if not broken and "--check" in sys.argv[1:]:
        if not PICTURE.exists() or PICTURE.read_text() != drawn:
            broken.append("docs/pictures/rooms.svg is not what crates.txt gives: run scripts/rooms.py and commit it")
    if broken:
        sys.exit("\n".join(f"rooms: {b}" for b in broken))
    if "--check" not in sys.argv[1:]:
        PICTURE.write_text(drawn)
    print(f"rooms: {len(stands)} crates keep to their rooms")


if __name__ == "__main__":
    main()
