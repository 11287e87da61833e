#!/usr/bin/env python3
"""Write the calls in hex that docs/CALLS.md shows: those of the program `story`, with chip bytes, MAC data and replies.

    calls.py              write the blocks between the page's markers, `<!-- hex: NAME PARTS -->` and `<!-- end -->`
    calls.py --check      end with 1 where the page or the story's file is out of date, or the story or include/sks.h tells something else
    calls.py --list       print every call on a line: its name, call, chip bytes and reply
    calls.py --run LIB    hand every call to sks_format and sks_call of a shared library, and compare status and reply

sks.py lays out the calls and makes the MACs. What is answered is written down here, from document 01. The MAC data stands here a
second time, and has to give the call's MAC. Asides are calls that the story does not have, made on a store that it has.
"""

import ctypes
import os
import re
import sys

import sks
from sks import be, handle, string

TOP = os.path.join(os.path.dirname(os.path.abspath(__file__)), "..")
PAGE, STATUSES, HEADER = (os.path.join(TOP, *p.split("/")) for p in ("docs/CALLS.md", "docs/STATUS.md", "include/sks.h"))
TOLD, PRINTED = (os.path.join(TOP, "crates", "story", *p.split("/")) for p in ("data/story", "stdout"))
RECORDS = 16

NAMES = {2: "createProvisioningSession", 3: "closeProvisioningSession", 5: "abortProvisioningSession", 8: "createPUKPolicy", 9: "createPINPolicy",
         10: "createKeyEntry", 12: "setCertificatePath", 50: "postDeleteKey", 51: "postUnlockKey", 80: "deleteKey", 82: "unlockKey",
         83: "changePIN", 100: "signHashedData"}

# Fields in order, each with its width in bytes; s is a string, with its length in front. Underscores are spaces.
RULES = "UserDefined:1 UserModifiable:1 format:1 retry_limit:1 grouping:1 patterns:1 min:1 max:1 InputMethod:1"
HEAD = "ID:s KeyEntryAlgorithm:s ServerSeed:s"
TAIL = ("PINValue:s EnablePINCaching:1 BiometricProtection:1 ExportProtection:1 DeleteProtection:1 AppUsage:1 FriendlyName:s KeyAlgorithm:s"
        " KeyParameters:s")
CALL = {2: "SessionKeyAlgorithm:s PrivacyEnabled:1 ServerSessionID:s ServerEphemeralKey:s IssuerURI:s KeyManagementKey:s ClientTime:4"
           " SessionLifeTime:4 SessionKeyLimit:2",
        3: "session_handle:4 Nonce:s MAC:32", 5: "session_handle:4",
        8: "session_handle:4 ID:s EncryptedValue:s format:1 retry_limit:1 MAC:32", 9: f"session_handle:4 ID:s PUK_handle:4 {RULES} MAC:32",
        10: f"session_handle:4 {HEAD} PIN_policy_handle:4 {TAIL} EndorsedAlgorithms:2 MAC:32",
        12: "session_handle:4 key_handle:4 count:1 certificate:s MAC:32", 50: "session_handle:4 key_handle:4 Authorization:s MAC:32",
        80: "key_handle:4 Authorization:s", 82: "key_handle:4 PUK:s", 83: "key_handle:4 PIN:s new_PIN:s", 100: "key_handle:4 PIN:s"}
CHIP = {2: "SessionKey:32 ClientSessionID:s", 8: "opened_value:*", 10: "public_key:s opened_PIN:s", 50: "signature_verified:1"}
DATA = {3: "ClientSessionID:s Nonce:s", 8: "ID:s EncryptedValue:s format:1 retry_limit:1", 9: f"ID:s PUK's_ID:s {RULES}",
        10: f"{HEAD} PIN_policy's_ID:s {TAIL}", 12: "key's_ID:s public_key:s certificate:s", 50: "Authorization:s"}
ATTESTED = {3: "Nonce:s", 10: "ID:s public_key:s"}
REPLY = "status:1 handle:4 attestation:32"
for fields in (CALL, CHIP, DATA):
    fields[51] = fields[50]


class Step:
    """A call with its chip bytes and the reply that document 01 asks for; for a call with a MAC, the key and data behind it."""

    def __init__(self, name, sent, status, made=0, secret=None, counter=0, data=None, attested=None):
        (self.call, self.chip), self.name = sent, name
        self.method = self.call[0]
        self.key = self.data = self.attest = None
        attestation = bytes(32)
        if secret:
            self.key, self.data = (secret, NAMES[self.method].encode(), be(counter, 2)), data
            assert sks.mac(*self.key[:2], counter, data) == self.call[-32:], f"{name}: the data does not give the call's MAC"
            if attested and status == 0:
                self.attest = (secret, sks.ATTEST, be(counter + 1, 2)), attested
                attestation = sks.mac(secret, sks.ATTEST, counter + 1, attested)
        self.reply = sks.reply(status, made, attestation)


class Tab:
    """A session as the story's server knows it. Each method gives a step and moves the MAC counter by its uses."""

    def __init__(self, digit):
        self.session, self.secret, self.counter = handle(digit), b"%d" % digit * 32, 0
        self.server, self.client = b"S%d" % digit, b"C%d" % digit

    def step(self, name, sent, uses, data, status=0, made=0, attested=None):
        was, self.counter = self.counter, self.counter + uses
        return Step(name, sent, status, made, self.secret, was, data, attested)

    def open(self, name=None):
        return Step(name, sks.create(self.client, self.secret, self.server, ephemeral=b"server's half of the ECDH", uri=b"https://issuer.example",
                                     management=b"public key for 50 and 51", life=3600), 0, self.session)

    def puk(self, name, id, value, made):
        encrypted = b"the PUK, encrypted"
        sent = sks.make_puk(self.session, self.secret, self.counter, id, value, encrypted)
        return self.step(name, sent, 1, string(id) + string(encrypted) + b"\0\3", made=made)

    def policy(self, name, id, puk, puk_id, made, defined=1):
        sent = sks.make_policy(self.session, self.secret, self.counter, id, puk, puk_id, defined=defined, patterns=4)
        return self.step(name, sent, 1, string(id) + string(puk_id) + bytes([defined, 1, 0, 3, 0, 4, 4, 8, 0]), made=made)

    def key(self, name, id, public, policy, policy_id, pin, made, opened=b""):
        in_mac = pin if opened else sks.NA
        sent = sks.make_key(self.session, self.secret, self.counter, id, public, policy, policy_id, pin, in_mac, opened, friendly=id)
        data = string(id) + string(sks.KEY_ALGORITHM) + string(b"") + string(policy_id) + string(in_mac) + bytes(5) + string(id) + string(sks.P256)
        return self.step(name, sent, 2, data + string(b""), made=made, attested=string(id) + string(public))

    def path(self, name, key, id, public):
        certificate = b"issuer's signature below this key's name"
        sent = sks.set_path(self.session, self.secret, self.counter, key, id, public, [certificate])
        return self.step(name, sent, 1, string(id) + string(public) + string(certificate))

    def post(self, name, method, key):
        authorization = b"signature by the KeyManagementKey"
        return self.step(name, sks.post(method, self.session, self.secret, self.counter, key, authorization), 1, string(authorization))

    def close(self, name=None, status=0):
        nonce = b"a number used once"
        sent = sks.close(self.session, self.secret, self.counter, self.client, nonce)
        return self.step(name, sent, 2 if status == 0 else 0, string(self.client) + string(nonce), status, attested=string(nonce))


def user(name, method, key, *values, status=0):
    return Step(name, sks.user(method, key, *values), status)


PUK, PIN, DOOR, MAIL, NEW_MAIL = handle(1, 1), handle(1, 2), handle(1, 3), handle(1, 4), handle(4, 2)
DOOR_KEY, MAIL_KEY, NEW_KEY = b"door public key", b"mail public key", b"new public key"


def issuing():
    t = Tab(1)
    return [t.open("open"), t.puk("puk", b"puk", b"31415926", PUK), t.policy("policy", b"pin", PUK, b"puk", PIN),
            t.key("key", b"door", DOOR_KEY, PIN, b"pin", b"2580", DOOR), t.path("path", DOOR, b"door", DOOR_KEY),
            t.key(None, b"mail", MAIL_KEY, PIN, b"pin", b"7139", MAIL), t.path(None, MAIL, b"mail", MAIL_KEY),
            user("use-early", 100, DOOR, b"2580", status=7), t.close("close"), user("use", 100, DOOR, b"2580")]


def locking():
    return [user("use-wrong", 100, DOOR, b"1111", status=1)] * 3


def queueing(badge, desk):
    return [badge.open(), badge.post("post-delete", 50, DOOR), desk.open(), desk.post("post-unlock", 51, DOOR)]


def closing(badge, desk):
    return [desk.close(), badge.close("close-second", status=6), badge.close(status=5), user(None, 100, DOOR, b"2580")]


def replacing(t):
    return [t.post(None, 50, MAIL), t.key("key-bare", b"mail", NEW_KEY, 0, sks.NA, b"", NEW_MAIL), t.path(None, NEW_MAIL, b"mail", NEW_KEY), t.close()]


def unlocking(t):
    return [t.post(None, 51, DOOR), t.close()]


def outcome():
    return [user(None, 100, DOOR, b"2580"), user(None, 100, MAIL, b"7139", status=7)]


def alone():
    changes = [user(None, 83, DOOR, b"2508", new, status=status) for new, status in ((b"3456", 17), (b"8642", 1), (b"8642", 1))]
    return (changes + [user("change", 83, DOOR, b"2580", b"8642")] + locking()
            + [user(None, 100, DOOR, b"8642", status=1), user(None, 82, DOOR, b"31415962", status=1), user("unlock", 82, DOOR, b"31415926"),
               user(None, 100, DOOR, b"8642"), user(None, 80, NEW_MAIL, b"7139", status=1), user("delete", 80, NEW_MAIL, b"")])


def giving_up():
    t, puk, policy = Tab(6), handle(6, 1), handle(6, 2)
    return [t.open(), t.puk(None, b"puk", b"31415926", puk), t.policy(None, b"pin", puk, b"puk", policy),
            t.key(None, b"locker", b"locker public key", policy, b"pin", b"6284", handle(6, 3)), t.post(None, 50, DOOR),
            Step("abort", sks.abort(t.session), 0), user(None, 100, DOOR, b"8642")]


def story():
    """The story's calls by chapter. Chapter 7 goes on from where chapter 5 ended, chapter 9 from either order."""
    badge, desk = Tab(2), Tab(3)
    return {2: issuing(),
            3: locking() + [user(None, 100, DOOR, b"2580", status=1)],
            4: queueing(badge, desk) + closing(badge, desk),
            5: locking() + [Tab(4).open(), Tab(5).open()],
            6: replacing(Tab(4)) + unlocking(Tab(5)) + outcome(),
            7: unlocking(Tab(5)) + replacing(Tab(4)) + outcome(),
            9: alone(),
            10: giving_up()}


def issuer_sets():
    """An aside in chapter 2: a second PIN policy, under which the issuer picks the PIN, and a key."""
    t, policy, key = Tab(1), handle(1, 3), handle(1, 4)
    steps = [t.open(), t.puk(None, b"puk", b"31415926", PUK), t.policy(None, b"pin", PUK, b"puk", PIN)]
    return steps + [t.policy(None, b"issuer-pin", PUK, b"puk", policy, defined=0),
                    t.key("key-issuer", b"safe", b"safe public key", policy, b"issuer-pin", b"the PIN, encrypted", key, opened=b"4711")]


def runs():
    """Lists of calls, each from a fresh store: the story in its two orders, and the asides."""
    c = story()
    start = c[2] + c[3] + c[4] + c[5]
    return [start + c[6] + c[9] + c[10], start + c[7] + c[9] + c[10], issuer_sets(),
            c[2] + [user("there", 83, DOOR, b"", b"", status=17), user(None, 80, MAIL, b""), user("gone", 83, MAIL, b"", b"", status=7)]]


# ---- the blocks


def cut(v, layout):
    """(field, width, bytes) for the fields of a layout, which have to fill the bytes."""
    fields, at = [], 0
    for name, width in (f.split(":") for f in layout.split()):
        n = len(v) - at if width == "*" else 2 + int.from_bytes(v[at:at + 2], "big") if width == "s" else int(width)
        fields.append((name.replace("_", " "), width, v[at:at + n]))
        at += n
    assert at == len(v)
    return fields


def row(hexes, words):
    return f"  {hexes:<64}  {words}".rstrip()


def quoted(v):
    assert all(0x20 <= b < 0x7F for b in v)
    return '"' + v.decode() + '"'


def rows(name, width, v):
    if width == "s" and len(v) > 32:
        pieces = [v[i:i + 32] for i in range(2, len(v), 32)]
        return [row(v[:2].hex(), f"{name}, {len(v) - 2} bytes")] + [row(p.hex(), quoted(p)) for p in pieces]
    if width == "s":
        return [row((v[:2].hex() + " " + v[2:].hex()).strip(), f"{name} {quoted(v[2:]) if len(v) > 2 else '(empty)'}")]
    if width == "*":
        return [row(v.hex(), f"{name} {quoted(v)}")]
    return [row(v.hex(), f"{name} {int.from_bytes(v, 'big')}" if int(width) < 5 and "handle" not in name else name)]


def dump(title, v, layout):
    return [f"{title}, {len(v)} bytes"] + [r for field in cut(v, layout) for r in rows(*field)]


def hmac_rows(title, key, data, layout):
    """What an HMAC is made of: its key of three parts, and its data."""
    secret, name, counter = key
    return ([f"{title}: the HMAC's key, {len(b''.join(key))} bytes", row(secret.hex(), "SessionKey"), row(name.hex(), f"name {quoted(name)}"),
             row(counter.hex(), f"MAC counter {int.from_bytes(counter, 'big')}")] + dump(f"{title}: the data", data, layout))


PARTS = ("call", "chip", "mac", "attestation", "reply")


def block(step, parts):
    """The parts of a step that are asked for, or all."""
    lines = {"call": dump("call", step.call, f"method:1 {CALL[step.method]}"), "reply": dump("reply", step.reply, REPLY),
             "chip": dump("chip bytes", step.chip, CHIP[step.method]) if step.chip else ["chip bytes: none"]}
    if step.data:
        lines["mac"] = hmac_rows("MAC", step.key, step.data, DATA[step.method])
    if step.attest:
        lines["attestation"] = hmac_rows("attestation", *step.attest, ATTESTED[step.method])
    shown = [line for p in PARTS if p in lines and (p in parts or not parts) for line in lines[p]]
    return "\n".join(["```text"] + shown + ["```"])


MARKED = r"(<!-- hex: ([a-z-]+)((?: [a-z]+)*) -->\n).*?(<!-- end -->)"


def named():
    return {s.name: s for steps in runs() for s in steps if s.name}


def page(text):
    steps = named()
    return re.sub(MARKED, lambda m: f"{m[1]}{block(steps[m[2]], m[3].split())}\n{m[4]}", text, flags=re.S)


# ---- the checks


def read(path):
    with open(path, encoding="utf8") as f:
        return f.read()


def told(step):
    """What the story prints of a step: method, name, handles that the call names, status, handle, whether an attestation."""
    names = [v.hex() for field, _, v in cut(step.call, f"method:1 {CALL[step.method]}") if "handle" in field]
    return (step.method, NAMES[step.method], names, step.reply[0], step.reply[1:5].hex(), any(step.reply[5:]))


def printed():
    line = r"^    (\d+) (\w+)(.*): status (\d+) \(.*\), handle ([0-9a-f]{8})(, attestation right)?$"
    return [(int(m), name, re.findall(r"[0-9a-f]{8}", named), int(status), made, bool(attested))
            for m, name, named, status, made, attested in re.findall(line, read(PRINTED), flags=re.M)]


def faults():
    import story as telling  # which takes its calls from here

    steps = [s for chapter in story().values() for s in chapter]
    text = read(PAGE)
    if [told(s) for s in steps] != printed():
        yield "the story prints other calls or answers"
    if read(TOLD) != telling.story():
        yield "crates/story/data/story is out of date: run scripts/story.py"
    for name in named().keys() - {m[1] for m in re.findall(MARKED, text, flags=re.S)}:
        yield f"docs/CALLS.md does not show {name}"
    if page(text) != text:
        yield "docs/CALLS.md is out of date: run scripts/calls.py"
    if re.findall(r"^\| (\d+) \| `(SKS_\w+)` \|", read(STATUSES), flags=re.M) != [
            (n, name) for name, n in re.findall(r"^    (SKS_\w+) = (\d+)", read(HEADER), flags=re.M)]:
        yield "docs/STATUS.md and include/sks.h have other numbers or names"


def run(path):
    """Every run, given to a library's two functions; the number of calls."""
    lib = ctypes.CDLL(os.path.abspath(path))
    count = 0
    for steps in runs():
        store = (ctypes.c_ubyte * (256 * RECORDS))()
        assert lib.sks_format(store, ctypes.c_size_t(len(store))) == 0
        for s in steps:
            reply = (ctypes.c_ubyte * 37)(*[0xEE] * 37)
            sent = [x for v in (s.call, s.chip) for x in (v, ctypes.c_size_t(len(v)))]
            status = lib.sks_call(store, ctypes.c_size_t(len(store)), *sent, reply, ctypes.c_size_t(37)) & 0xFF
            assert (status, bytes(reply)) == (s.reply[0], s.reply), f"{s.name or s.call.hex()}: {status} {bytes(reply).hex()}"
            count += 1
    return count


def main(arguments):
    if not arguments:
        text = page(read(PAGE))
        with open(PAGE, "w", encoding="utf8") as f:
            f.write(text)
    elif arguments == ["--check"]:
        found = list(faults())
        print("\n".join(found) or "docs/CALLS.md: up to date, and as the story has it")
        return 1 if found else 0
    elif arguments == ["--list"]:
        listed = {}
        for s in (s for steps in runs() for s in steps):
            listed.setdefault((s.call, s.reply), s)
        for s in listed.values():
            print(s.name or "-", s.call.hex(), s.chip.hex() or "-", s.reply.hex())
    elif arguments[0] == "--run" and len(arguments) == 2:
        print(f"{run(arguments[1])} calls, all answered as written down")
    else:
        print(__doc__)
        return 2
    return 0


if __name__ == "__main__":
    sys.exit(main(sys.argv[1:]))
