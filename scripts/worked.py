#!/usr/bin/env python3
"""Write the worked stores of crate `worked`: crates/worked/proofs/*.antt, a file a story.

A story is a list of steps. A step is a call with its chip bytes, the reply expected, and the records expected behind it, all written
down here with the help of sks.py (Python's hashlib and hmac). The checker computes what the definitions of crate `paper` answer.
"""

import hashlib
import os
import re

import sks

HERE = os.path.dirname(os.path.abspath(__file__))
CRATES = os.path.join(HERE, "..", "crates")

ONE, TWO = bytes(range(32)), bytes(range(100, 132))  # SessionKeys of two issuers
PUBLIC, CERT = b"PUBLIC-KEY-ONE", b"CERTIFICATE"
DIGEST = hashlib.sha256(CERT).digest()
S1, S2, S3 = sks.handle(1), sks.handle(2), sks.handle(3)
PUK, POLICY, KEY = S1 + 1, S1 + 2, S1 + 3


def attested(key, counter, data):
    return sks.mac(key, sks.ATTEST, counter, data)


# the records that issuer 1 leaves: a closed session with a PUK, a PIN policy and a key
def session_1(state, following, counter):
    return sks.session_record(1, state, following, b"S1", b"C1", ONE if state == 1 else bytes(32), counter, 9)


def key_1(path=1, errors=0):
    return sks.key_record(1, 3, b"key", PUBLIC, policy=POLICY, pin=b"1245", path=path, errors=errors, deletion=2, digest=DIGEST if path else bytes(32))


def puk_1(errors=0):
    return sks.puk_record(1, 1, b"puk", b"12345678", errors=errors)


POLICY_1 = sks.policy_record(1, 2, b"pol", puk=PUK)


def issued(errors=0, puk_errors=0):
    return [session_1(2, 4, 7), puk_1(puk_errors), POLICY_1, key_1(errors=errors)]


def life():
    c1, c2 = sks.counter_record(1), sks.counter_record(2)
    return [c1] + [sks.FREE] * 5, [
        ("a session is made", sks.create(b"C1", ONE, limit=9), sks.reply(0, S1), [c2, session_1(1, 1, 0)]),
        ("a PUK", sks.make_puk(S1, ONE, 0, b"puk", b"12345678"), sks.reply(0, PUK), [c2, session_1(1, 2, 1), puk_1()]),
        ("a PIN policy under it", sks.make_policy(S1, ONE, 1, b"pol", puk=PUK, puk_name=b"puk"), sks.reply(0, POLICY),
         [c2, session_1(1, 3, 2), puk_1(), POLICY_1]),
        ("a key under that, with a PIN that the user chose",
         sks.make_key(S1, ONE, 2, b"key", PUBLIC, policy=POLICY, policy_name=b"pol", pin_value=b"1245", deletion=2),
         sks.reply(0, KEY, attested(ONE, 3, sks.string(b"key") + sks.string(PUBLIC))),
         [c2, session_1(1, 4, 4), puk_1(), POLICY_1, key_1(path=0)]),
        ("its certificate path", sks.set_path(S1, ONE, 4, KEY, b"key", PUBLIC, [CERT, b"CA"]), sks.reply(0),
         [c2, session_1(1, 4, 5), puk_1(), POLICY_1, key_1()]),
        ("the session closes", sks.close(S1, ONE, 5, b"C1"), sks.reply(0, 0, attested(ONE, 6, sks.string(b"N"))), [c2] + issued()),
    ]


def conflict():
    c4 = sks.counter_record(4)

    def s2(following, counter):
        return sks.session_record(2, 1, following, b"S2", b"C2", ONE, counter, 9)

    def s3(following, counter):
        return sks.session_record(3, 1, following, b"S3", b"C3", TWO, counter, 9)

    removal, unlock = sks.pending_record(2, 1, 50, KEY), sks.pending_record(3, 1, 51, KEY)
    return [c4] + issued(errors=2, puk_errors=1) + [s2(1, 0), s3(1, 0), sks.FREE, sks.FREE], [
        ("session 2 asks for the key's removal", sks.post(50, S2, ONE, 0, KEY), sks.reply(0),
         [c4] + issued(2, 1) + [s2(2, 1), s3(1, 0), removal]),
        ("session 3 asks for its unlocking", sks.post(51, S3, TWO, 0, KEY), sks.reply(0),
         [c4] + issued(2, 1) + [s2(2, 1), s3(2, 1), removal, unlock]),
        ("session 3 closes first: the key and its PUK are unlocked, the removal is stale",
         sks.close(S3, TWO, 1, b"C3"), sks.reply(0, 0, attested(TWO, 2, sks.string(b"N"))),
         [c4] + issued() + [s2(2, 1), sks.FREE, sks.pending_record(2, 1, 50, 0, stale=1)]),
        ("session 2 comes second", sks.close(S2, ONE, 1, b"C2"), sks.reply(6), [c4] + issued()),
        ("the key is still there", sks.user(100, KEY, b"1245"), sks.reply(0), [c4] + issued()),
    ]


def locked():
    c2 = sks.counter_record(2)
    wrong, right = sks.user(100, KEY, b"9999"), sks.user(100, KEY, b"1245")
    return [c2] + issued(errors=1), [
        ("a wrong PIN is counted", wrong, sks.reply(1), [c2] + issued(errors=2)),
        ("the right one clears the count", right, sks.reply(0), [c2] + issued()),
        ("a wrong PIN", wrong, sks.reply(1), [c2] + issued(errors=1)),
        ("and another", wrong, sks.reply(1), [c2] + issued(errors=2)),
        ("the third locks the key", wrong, sks.reply(1), [c2] + issued(errors=3)),
        ("now the right one is refused, and nothing changes", right, sks.reply(1), [c2] + issued(errors=3)),
        ("a wrong PUK is counted, at the PUK", sks.user(82, KEY, b"0"), sks.reply(1), [c2] + issued(errors=3, puk_errors=1)),
        ("the right PUK unlocks", sks.user(82, KEY, b"12345678"), sks.reply(0), [c2] + issued()),
    ]


def full():
    c2 = sks.counter_record(2)
    return [sks.counter_record(1), sks.FREE], [
        ("the last free record", sks.create(b"C1", ONE, limit=9), sks.reply(0, S1), [c2, session_1(1, 1, 0)]),
        ("no room for a second session: nothing changes", sks.create(b"C2", TWO), sks.reply(2), [c2, session_1(1, 1, 0)]),
        ("no room for an object: the session is gone", sks.make_puk(S1, ONE, 0, b"puk", b"12345678"), sks.reply(2), [c2]),
    ]


STORIES = [
    ("Life", "One session from create to close.", life),
    ("Conflict", "Two sessions want one key: the first close stands.", conflict),
    ("Locked", "A PIN that locks, and the PUK that unlocks it.", locked),
    ("Full", "A store with no room.", full),
]

HEAD = """-- {title} Each step: the records before, a call with its chip bytes, the reply, the records after.
-- Written by scripts/worked.py.
use mathlib.Core.Path.{{refl}}
use mathlib.Core.List.{{List, [], ◌∷◌}}
use Prim.Native.String.{{String}}
{uses}
use Rattle.worked.specs.Hex.{{row, answers}}
"""


def rows(store):
    return "\n".join(f'    row "{r.rstrip(bytes(1)).hex()}" ∷' for r in store) + " []"


def seen_through():
    """`use` lines and names of every definition that the computation opens."""
    uses, names = [], []
    for crate in ("sha256", "hmac", "paper"):
        folder = os.path.join(CRATES, crate, "specs")
        for f in sorted(os.listdir(folder)):
            if f == "Issuing.antt":  # the issuer's half: no answer of the store opens it
                continue
            found = re.findall(r"^ *unfoldable pub (\S+) :", open(os.path.join(folder, f), encoding="utf8").read(), flags=re.M)
            if found:
                uses.append(f"use Rattle.{crate}.specs.{f[:-5]}.{{{', '.join(found)}}}")
                names += found
    uses.append("use Rattle.paper.specs.Form.{Rec}")
    return "\n".join(uses), " ".join(names)


def told(title, story, calls_first=False):
    """A story as antt text: its stores, calls and steps."""
    uses, names = seen_through()
    before, steps = story()
    text = HEAD.format(title=title, uses=uses)
    calls = [f'\nabbrev pub call_{i} : String\ncall_{i} = "{call.hex()}"\n' for i, (_, (call, _), _, _) in enumerate(steps, 1)]
    text += "".join(calls) if calls_first else ""
    text += f"\nabbrev pub store_0 : List Rec\nstore_0 =\n{rows(before)}\n"
    for i, (what, (_, chip), reply, after) in enumerate(steps, 1):
        after = after + [sks.FREE] * (len(before) - len(after))
        text += f"\n-- {what}\nabbrev pub store_{i} : List Rec\nstore_{i} =\n{rows(after)}\n"
        text += "" if calls_first else calls[i - 1]
        text += f'\npub step_{i} : answers store_{i - 1} call_{i} "{chip.hex()}" "{reply.hex()}" store_{i}\n'
        text += f"unfolding {names}\nstep_{i} = refl\n"
    return text


def write(name, title, story):
    open(os.path.join(CRATES, "worked", "proofs", name + ".antt"), "w", encoding="utf8").write(told(title, story))


if __name__ == "__main__":
    for name, title, story in STORIES:
        write(name, title, story)
