#!/usr/bin/env python3
"""Write crates/story/data/story, from which the program `story` tells of two tabs and one key.

The words stand here; the calls, their chip bytes and the replies that are expected are those of calls.py, chapter by chapter. What
the orders in the file mean (a % and a letter) is said in crates/story/src/main.rt. What the program prints is in crates/story/stdout.
"""

import os

import calls

FILE = os.path.join(calls.TOP, "crates", "story", "data", "story")
MOST = 256  # bytes of a call, of chip bytes or of a reply that the program takes

PREFACE = """\
Two tabs and one key
====================

A call to the token is bytes: the number of its method, then its fields. The token answers with a status, 0 where the call is
done, and with a handle, the name of what the call has made: 00010003 is object 3 of session 1, and 00000000 is nothing. An
issuer's calls carry a MAC, which its server makes. How the bytes are put together can be read in docs/CALLS.md.

Any number of sessions can be open, and none waits for another. What a session asks for counts when the session is closed, and
where two sessions want the same key, the first close stands.
"""

MEANING = {0: "done", 1: "PIN or PUK wrong or locked", 5: "no such open session", 6: "not fit to be closed", 7: "no such key", 17: "against a rule"}

# How a handle in a call is named.
LINK = {"session handle": " in session ", "PUK handle": " under PUK ", "PIN policy handle": " under PIN policy ", "key handle": " for key "}

LOOK = "In the store: sessions %1, PUKs %2, PIN policies %3, keys %4, queued %5, counter %6, free places %0.\n"

LOCK = ["user: types 1111 for the door key.", "user: types 1111 again.", "user: types 1111 a third time. That was the last try."]
POLICIES = ["issuer: makes a PUK, 31415926, with three tries.",
            "issuer: makes a PIN policy under that PUK: four to eight digits, three tries, and the user picks the PIN."]
REPLACING = ["badge office: queues the removal of the mail key.", "badge office: makes a new mail key, without a PIN.",
             "badge office: gives the key its certificate.", "badge office: closes. The old mail key is removed, and the new one is the user's."]
UNLOCKING = ["help desk: queues an unlock of the door key.", "help desk: closes. The door key is unlocked."]
OUTCOME = ["user: opens the door with 2580.", "user: tries the old mail key with 7139.", LOOK]

# A chapter: its title, then what is told. Who does what is told of the chapter's next call, a line that ends in a newline is told as it is.
CHAPTERS = {
    1: ["A token is made ready",
        "maker: formats the token. It has room for 16 records, and one is the counter of its sessions.\n%f    format: status %s (done)\n", LOOK],
    2: ["An issuer gives its user two keys",
        "issuer: opens a session. With its KeyManagementKey it can sign for a removal or an unlock of its keys later.", *POLICIES,
        "issuer: makes the door key under that policy. The user picks 2580.", "issuer: gives the key its certificate.",
        "issuer: makes the mail key in the same way. The user picks 7139.", "issuer: gives the key its certificate.",
        "user: tries the door key with 2580, too early: nothing counts until the session is closed.",
        "issuer: closes the session. Now the keys are the user's.", "user: opens the door with 2580.", LOOK],
    3: ["The user locks the door key", *LOCK, "user: types the right PIN, 2580. The key is locked, so that does not help any more."],
    4: ["Two tabs want the same key",
        "badge office: opens a session.", "badge office: queues the removal of the door key. The key is still there.",
        "help desk: opens a session too. The badge office's is still open, and nobody waits.",
        "help desk: queues an unlock of the same key. The key is still locked.", LOOK,
        "help desk: closes first. The key is unlocked, and that makes the removal stale.",
        "badge office: closes second, and is told 6. Nothing is removed, and its session is gone.",
        "badge office: closes once more. To try again it has to open a session and queue the removal anew.",
        "user: opens the door with 2580. The key is there, and unlocked.", LOOK],
    5: ["The same two tabs, each with a key of its own", *LOCK, "badge office: opens a session.", "help desk: opens a session.",
        "%kThe store is copied here, and the rest is told twice.\n"],
    6: ["The badge office goes first", *REPLACING, *UNLOCKING, *OUTCOME],
    7: ["The help desk goes first, on the copy%x", *UNLOCKING, *REPLACING, *OUTCOME],
    8: ["What the two orders left", "The %r records, byte for byte, at %p places.%x\n"],
    9: ["What the user can do alone",
        "user: wants 3456 as the door key's PIN, and types 2508 for 2580. The policy forbids a run: 17 comes first, and costs no try.",
        "user: wants 8642 instead, and types 2508 again. This time it costs a try.", "user: types 2508 once more. One try is left.",
        "user: types 2580. The PIN is 8642 now, and all three tries are back.", *LOCK, "user: types 8642. The key is locked.",
        "user: types 31415962 as the PUK, with two digits swapped. A PUK has tries of its own, and this costs one of its three.",
        "user: types the PUK, 31415926. The key is unlocked, and no issuer was asked.", "user: opens the door with 8642.",
        "user: deletes the new mail key, and types 7139. No PIN and no PUK guards its deletion, so whatever is typed is wrong.",
        "user: deletes it, and types nothing. It is gone, and so is its session, which had no other key.", LOOK],
    10: ["An issuer gives up", "%kissuer: opens a session, to give the user a locker key in place of the door key.", *POLICIES,
         "issuer: makes the locker key under that policy. The user picks 6284.", "issuer: queues the removal of the door key.", LOOK,
         "issuer: aborts the session. All that it has made is gone, and so is what it has queued.", "user: opens the door with 8642.", LOOK,
         "But for the counter, every byte is the %o as before that session.\n"],
}


def told(step):
    """A call: its bytes, its chip bytes and the reply that is expected, a line each, then the line that is printed of it."""
    parts = (step.call, step.chip, step.reply)
    assert all(len(p) <= MOST for p in parts)
    handles = [(LINK[field], v.hex()) for field, _, v in calls.cut(step.call, f"method:1 {calls.CALL[step.method]}") if field in LINK]
    named = "".join(link + h for link, h in handles)
    if step.method == 100:
        named = named.replace("for key", "with key")
    line = f"    {step.method} {calls.NAMES[step.method]}{named}: status %s ({MEANING[step.reply[0]]}), handle %h"
    attested = ", attestation right" if any(step.reply[5:]) else ""
    return "".join(f"{mark} {p.hex()}\n" for mark, p in zip(("%c", " +", " ="), parts)) + f" > {line}{attested}\n"


def chapter(number, steps):
    title, *lines = CHAPTERS[number]
    text = f"\n{number}. {title}\n\n"
    left = iter(steps)
    for line in lines:
        text += line if line.endswith("\n") else line + "\n" + told(next(left))
    assert next(left, None) is None, f"chapter {number} has more calls than words"
    return text


def story():
    steps = calls.story()
    text = PREFACE + "".join(chapter(n, steps.get(n, [])) for n in CHAPTERS)
    assert len(text) < 65536, "the program reads no more"
    return text


if __name__ == "__main__":
    os.makedirs(os.path.dirname(FILE), exist_ok=True)
    with open(FILE, "w", encoding="ascii") as f:
        f.write(story())
