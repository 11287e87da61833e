#!/usr/bin/env python3
"""Write the fuzz target's first inputs into a folder: every case of scripts/lines.py, and its calls on stores that the target lays."""

import os
import sys

HERE = os.path.dirname(os.path.abspath(__file__))
sys.path.insert(0, os.path.join(HERE, "..", "..", "scripts"))

import lines  # noqa: E402

RAW, LAID, FORMAT = range(3)
LEAVE, SESSION, PUK, POLICY, KEY, PENDING, POKE = range(7)


def be(n):
    return n.to_bytes(2, "big")


def seed(mode, store, spare, call=b"", chip=b"", reply=37):
    return bytes([mode, reply]) + be(spare) + be(len(store)) + be(len(call)) + store + call + chip


def raw(store, *rest, mode=RAW):
    """Zeros at the store's end are counted instead of written."""
    kept = max(len(store.rstrip(b"\0")), len(store) - 65535)
    return seed(mode, store[:kept], len(store) - kept, *rest)


def steps(*each):
    return b"".join(bytes(s).ljust(4, b"\0") for s in each)


# Session 1 closed: a PUK, a PIN policy, a key with DeleteProtection 2.
ISSUED = steps((SESSION, 1, 7), (PUK,), (POLICY, 1), (KEY, 5))
SHARED = steps((SESSION, 1, 9), (PUK,), (POLICY, 3), (KEY, 5, 1), (KEY, 5, 2))
TWO_TABS = ISSUED + steps((SESSION,), (SESSION, 4))
STORES = (
    b"",
    steps((SESSION,)),
    steps((SESSION, 8)),
    steps((SESSION, 0, 1), (PUK,)),
    steps((SESSION, 0, 2), (PUK,), (POLICY, 1)),
    steps((SESSION, 0, 4), (PUK,), (POLICY, 1), (KEY, 13)),
    steps((SESSION, 0, 5), (PUK,), (POLICY, 1), (KEY, 5)),
    ISSUED,
    SHARED,
    TWO_TABS,
    ISSUED + steps((SESSION, 0, 1), (PENDING,), (SESSION, 4, 1), (PENDING, 1)),
    SHARED + steps((SESSION, 0, 2), (PENDING,), (PENDING, 1, 1), (LEAVE,), (SESSION, 4, 1), (PENDING, 2)),
    ISSUED * 20 + steps((SESSION, 0, 1), (PENDING, 0, 7), (PENDING, 1, 8)),
)


def all_seeds():
    lines.build()
    cases = [c for group in lines.GROUPS.values() for c in group]
    for kind, _, before, (call, chip), _, buffer, _ in cases:
        yield raw(b"".join(before), call, chip, len(buffer), mode=FORMAT if kind == lines.FORMAT else RAW)
    calls = {call for kind, _, _, call, status, _, _ in cases if kind != lines.FORMAT and status < 2}
    for store in STORES:
        for call, chip in sorted(calls):
            yield seed(LAID, store, 4, call, chip)


def main(folder):
    os.makedirs(folder, exist_ok=True)
    number = 0
    for number, data in enumerate(all_seeds(), 1):
        with open(os.path.join(folder, f"{number:04}"), "wb") as f:
            f.write(data)
    print(f"fuzz: {number} first inputs")


if __name__ == "__main__":
    main(sys.argv[1])
