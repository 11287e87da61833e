#!/usr/bin/env python3
"""Write the stores of crate `instances`: crates/instances/proofs/{Apart,Unnamed}*.antt, two orders of the same two calls each.

Each order is a story as scripts/worked.py writes them: a call with its chip bytes, the reply expected, the records expected. The two calls come
first, since the theorems speak of them.
"""

import os

import sks
import worked
from worked import ONE, TWO, PUBLIC, DIGEST, S1, S2, S3, POLICY, KEY

OTHER = S1 + 4  # a second key of session 1
OWN = S1 + 1  # a key of session 1 while it is still open


def attested(key, counter):
    return worked.attested(key, counter, sks.string(b"N"))


# session 2 holds the removal of one key and closes; session 3 asks for the unlocking of another key under the same policy
def apart(first):
    c4 = sks.counter_record(4)
    puk, pol = worked.puk_1(), worked.POLICY_1
    s1 = worked.session_1(2, 5, 9)
    k2 = sks.key_record(1, 4, b"key2", PUBLIC, policy=POLICY, pin=b"1245", path=1, deletion=2, digest=DIGEST)
    s2 = sks.session_record(2, 1, 2, b"S2", b"C2", ONE, 1, 9)
    s3 = [sks.session_record(3, 1, n + 1, b"S3", b"C3", TWO, n, 9) for n in (0, 1)]
    removal, unlock, free = sks.pending_record(2, 1, 50, KEY), sks.pending_record(3, 1, 51, OTHER), sks.FREE
    close, closed = sks.close(S2, ONE, 1, b"C2"), sks.reply(0, 0, attested(ONE, 2))
    post, posted = sks.post(51, S3, TWO, 0, OTHER), sks.reply(0)
    before = [c4, s1, puk, pol, worked.key_1(), k2, s2, s3[0], removal, free]
    if first == "close":
        return before, [
            ("session 2 closes: the key is removed", close, closed, [c4, s1, puk, pol, free, k2, free, s3[0]]),
            ("session 3 asks for the other key: the removed key's place is taken", post, posted, [c4, s1, puk, pol, unlock, k2, free, s3[1]]),
        ]
    return before, [
        ("session 3 asks for the other key: the last place is taken", post, posted, [c4, s1, puk, pol, worked.key_1(), k2, s2, s3[1], removal, unlock]),
        ("session 2 closes: the key is removed", close, closed, [c4, s1, puk, pol, free, k2, free, s3[1], free, unlock]),
    ]


# session 1 closes; session 2 asks for the removal of session 1's own new key
def unnamed(first):
    c3, free = sks.counter_record(3), sks.FREE
    s1 = sks.session_record(1, 1, 2, b"S1", b"C1", ONE, 3, 9)
    s1_closed = sks.session_record(1, 2, 2, b"S1", b"C1", bytes(32), 5, 9)
    key = sks.key_record(1, 1, b"key", PUBLIC, path=1, digest=DIGEST)
    s2 = [sks.session_record(2, 1, n + 1, b"S2", b"C2", TWO, n, 9) for n in (0, 1)]
    close, closed = sks.close(S1, ONE, 3, b"C1"), sks.reply(0, 0, attested(ONE, 4))
    post = sks.post(50, S2, TWO, 0, OWN)
    before = [c3, s1, key, s2[0], free]
    if first == "close":
        return before, [
            ("session 1 closes: its key is a closed session's from now on", close, closed, [c3, s1_closed, key, s2[0]]),
            ("session 2 asks for it", post, sks.reply(0), [c3, s1_closed, key, s2[1], sks.pending_record(2, 1, 50, OWN)]),
        ]
    return before, [
        ("session 2 asks for a key of an open session", post, sks.reply(7), [c3, s1, key]),
        ("session 1 closes", close, closed, [c3, s1_closed, key]),
    ]


STORIES = [
    ("ApartCloseFirst", "Two sessions that want different keys, the close first.", lambda: apart("close")),
    ("ApartPostFirst", "The same two calls, the post first.", lambda: apart("post")),
    ("UnnamedCloseFirst", "A close, and a removal of that session's own new key, the close first.", lambda: unnamed("close")),
    ("UnnamedPostFirst", "The same two calls, the post first.", lambda: unnamed("post")),
]


def write(name, title, story):
    text = worked.told(title, story, calls_first=True).replace("scripts/worked.py", "scripts/instances.py")
    open(os.path.join(worked.CRATES, "instances", "proofs", name + ".antt"), "w", encoding="utf8").write(text)


if __name__ == "__main__":
    for name, title, story in STORIES:
        write(name, title, story)
