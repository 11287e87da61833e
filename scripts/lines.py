#!/usr/bin/env python3
"""Write the cases that the program `lines` runs, crates/lines/data/cases, and what it prints of them, crates/lines/stdout.

A case is a store, a call with its chip bytes or a format, the length of the reply buffer, and what is expected: the status, the reply's
handle and attestation, and the store afterwards. All of it is written down here; sks.py only lays out bytes and makes MACs.
crates/lines/src/main.rt says how the file is laid out.
"""

import hashlib
import os

import sks

HERE = os.path.dirname(os.path.abspath(__file__))
ONE, TWO = bytes(range(1, 33)), bytes(range(101, 133))
PUBLIC, CERT = b"PUBLIC-KEY-ONE", b"CERTIFICATE"
DIGEST = hashlib.sha256(CERT).digest()
S1, S2, S3 = sks.handle(1), sks.handle(2), sks.handle(3)
FILL = 0xA5
STATUSES = (0, 1, 2, 3, 4, 5, 6, 7, 8, 16, 17, 19, 20, 21)
FORMAT, CALL, NEXT = 0, 1, 2  # NEXT: a call on the store as the case before left it
GROUPS = {}
GROUP = None  # the group of the cases that follow; None: the method's


def case(name, before, call, after, status, handle=0, attestation=bytes(32), reply=37, kind=CALL):
    """`after` is a list of records, free ones at the end left out, or None where the store stays as it is."""
    after = before if after is None else after + [sks.FREE] * (len(before) - len(after))
    assert len(after) == len(before)
    told = sks.reply(status, handle, attestation)
    buffer = bytes([FILL]) * reply if reply < 37 else told + bytes([FILL]) * (reply - 37)
    GROUPS.setdefault(GROUP or f"method {call[0][0]}", []).append((kind, name, before, call, status, buffer, after))


def gone(store, session):
    """The store without a session: each of its records freed in its place."""
    h = sks.be(session, 4)
    return [sks.FREE if r[8:12] == h else r for r in store]


def refused(name, before, call, status, session=S1, reply=37):
    case(name, before, call, gone(before, session), status, reply=reply)


def same(name, before, call, status, reply=37):
    case(name, before, call, None, status, reply=reply)


def attested(key, counter, *strings):
    return sks.mac(key, sks.ATTEST, counter, b"".join(sks.string(s) for s in strings))


def put(store, i, r):
    return store[:i] + [r] + store[i + 1:]


# ---- stores

def session(number=1, state=1, following=1, counter=0, limit=20, key=ONE, managed=1, server=None, client=None):
    return sks.session_record(number, state, following, server or b"S%d" % number, client or b"C%d" % number, key if state == 1 else bytes(32), counter, limit, managed=managed)


def counter(n):
    return sks.counter_record(n)


FRESH = [counter(1)] + [sks.FREE] * 7


def opened(**more):
    return [counter(2), session(**more)] + [sks.FREE] * 6


PUK1 = sks.puk_record(1, 1, b"puk", b"12345678")
POL1 = sks.policy_record(1, 2, b"pol", puk=S1 + 1)


def key1(path=1, errors=0, deletion=2, pin=b"1245", policy=S1 + 2, obj=3, name=b"key"):
    return sks.key_record(1, obj, name, PUBLIC, policy=policy, pin=pin, path=path, errors=errors, deletion=deletion, digest=DIGEST if path else bytes(32))


def issued(errors=0, puk_errors=0, deletion=2, puk_retry=3):
    """Session 1 closed: a PUK, a PIN policy, a key."""
    return [session(state=2, following=4, counter=7), sks.puk_record(1, 1, b"puk", b"12345678", errors=puk_errors, retry=puk_retry), POL1, key1(errors=errors, deletion=deletion)]


def two_tabs(errors=0, **more):
    """Session 1 closed with its key, sessions 2 and 3 open."""
    return [counter(4)] + issued(errors) + [session(2, **more), session(3, key=TWO)] + [sks.FREE] * 4


def tabs_with_records():
    """The same, with a PUK and a pending in each of the two open sessions."""
    store = two_tabs()
    store[5:] = [session(2, following=3, counter=2), session(3, key=TWO, following=3, counter=2), sks.puk_record(2, 1, b"puk", b"1"), sks.puk_record(3, 1, b"puk", b"1"),
                 sks.pending_record(2, 2, 50, K), sks.pending_record(3, 2, 51, K), sks.FREE]
    return store


K = S1 + 3


# What each method takes: a store and a call that is done there.

def accepted():
    keyed = [counter(2), session(following=4, counter=4), PUK1, POL1, key1(path=0), sks.FREE]
    used = [counter(2)] + issued() + [sks.FREE]
    yield FRESH, sks.create(b"C1", ONE)
    yield opened(), sks.close(S1, ONE, 0, b"C1")
    yield opened(), sks.abort(S1)
    yield opened(), sks.make_puk(S1, ONE, 0, b"puk", b"12345678")
    yield opened(), sks.make_policy(S1, ONE, 0, b"pol")
    yield opened(), sks.make_key(S1, ONE, 0, b"key", PUBLIC)
    yield keyed, sks.set_path(S1, ONE, 4, K, b"key", PUBLIC, [CERT])
    yield two_tabs(), sks.post(50, S2, ONE, 0, K)
    yield two_tabs(), sks.post(51, S2, ONE, 0, K)
    yield used, sks.user(80, K, b"12345678")
    yield used, sks.user(82, K, b"12345678")
    yield used, sks.user(83, K, b"1245", b"8642")
    yield used, sks.user(100, K, b"1245")


# ---- the cases

def formats():
    def form(name, before, after, status):
        case(name, before, (b"", b""), after, status, reply=0, kind=FORMAT)

    dirt = b"\xff" * 256
    fresh = [counter(1)]
    form("512 bytes: formatted", [dirt] * 2, fresh, 0)
    form("511 bytes: 19, untouched", [dirt, dirt[:255]], None, 19)
    form("513 bytes: 19, untouched", [dirt, dirt, dirt[:1]], None, 19)
    form("256 bytes: 19, untouched", [dirt], None, 19)
    form("no bytes: 19", [], None, 19)
    form("768 bytes, a store in use", opened()[:3], fresh, 0)
    form("65,536 bytes", [dirt] + [sks.FREE] * 255, fresh, 0)
    form("65,792 bytes: 19, untouched", [dirt] + [sks.FREE] * 256, None, 19)


def entry():
    ok = sks.create(b"C1", ONE, limit=20)
    done = [counter(2), session()]
    case("reply of 36 bytes: 21, nothing written", FRESH, ok, None, 21, reply=36)
    case("reply of 37 bytes", FRESH, ok, done, 0, S1)
    case("reply of 38 bytes: the last stays", FRESH, ok, done, 0, S1, reply=38)
    case("no reply at all: 21", FRESH, ok, None, 21, reply=0)
    same("21 comes before 19", [sks.FREE, sks.FREE], ok, 21, reply=36)
    same("store of 511 bytes: 19", [counter(1), bytes(255)], ok, 19)
    same("store of 256 bytes: 19", [counter(1)], ok, 19)
    same("store of no bytes: 19", [], ok, 19)
    same("store of 257 records: 19", [counter(1)] + [sks.FREE] * 256, ok, 19)
    case("store of 2 records", [counter(1), sks.FREE], ok, done, 0, S1)
    case("store of 256 records", [counter(1)] + [sks.FREE] * 255, ok, done, 0, S1)
    same("no counter: 19", [sks.FREE] * 3, ok, 19)
    same("two counters: 19", [counter(1), counter(1), sks.FREE], ok, 19)
    same("counter 0: 19", [counter(0), sks.FREE], ok, 19)
    same("counter 65,537: 19", [counter(65537), sks.FREE], ok, 19)
    case("the counter need not be first", [sks.FREE, counter(1), sks.FREE], ok, [session(), counter(2)], 0, S1)
    same("a kind 7: 19", put(FRESH, 1, b"\x07" + bytes(255)), ok, 19)
    same("a byte in a free record: 19", put(FRESH, 1, bytes(255) + b"\x01"), ok, 19)
    for n, what in ((b"", "an empty call"), (b"\x05\0\1\0", "a call of 4 bytes"), (b"\x04" + bytes(4), "method 4"), (b"\x46" + bytes(4), "method 70"), (b"\x34" + bytes(4), "method 52"), (b"\xff" + bytes(4), "method 255")):
        same(f"{what}: 16, the store stays", opened(), (n, b""), 16)
    keyed = [counter(2), session(following=2), sks.key_record(1, 1, b"key", PUBLIC), sks.FREE]
    longest = b"c" * 16340
    call = sks.set_path(S1, ONE, 0, S1 + 1, b"key", PUBLIC, [longest])
    case("a call of 16,384 bytes", keyed, call, [counter(2), session(following=2, counter=1), sks.key_record(1, 1, b"key", PUBLIC, path=1, digest=hashlib.sha256(longest).digest())], 0)
    same("a call of 16,385 bytes: 16, the store stays", keyed, sks.set_path(S1, ONE, 0, S1 + 1, b"key", PUBLIC, [longest + b"c"]), 16)
    case("a call of 5 bytes", opened(), sks.abort(S1), [counter(2)], 0)
    same("19 comes before 16", [sks.FREE] * 2, (b"", b""), 19)
    same("16 comes before 5", opened(), (b"\x04" + sks.be(S2, 4), b""), 16)


def every_method():
    """What any method can be answered before it is looked at, with a call that is done otherwise."""
    for before, (call, chip) in accepted():
        m = call[0]
        same(f"{m}: reply of 36 bytes: 21", before, (call, chip), 21, reply=36)
        same(f"{m}: an unsound store: 19", before[:-1] + [counter(9)], (call, chip), 19)
        same(f"{m}: a call of 4 bytes: 16, the store stays", before, (call[:4], chip), 16)
        if m not in (2, 80, 82, 83, 100):
            same(f"{m}: 5 comes before the rest of 16", before, (call[:1] + sks.be(sks.handle(9), 4) + call[5:] + b"\0", chip), 5)


def methods_2():
    before = FRESH
    good = dict(client=b"C1", key=ONE)
    done = [counter(2), session()]

    def make(**more):
        return sks.create(**{**good, **more})

    case("2: done", before, make(), done, 0, S1)
    call, chip = make()
    same("2: a byte too many: 16", before, (call + b"\0", chip), 16)
    same("2: a byte missing: 16", before, (call[:-1], chip), 16)
    same("2: a chip byte too many: 16", before, (call, chip + b"\0"), 16)
    same("2: a chip byte missing: 16", before, (call, chip[:-1]), 16)
    same("2: no chip bytes: 16", before, (call, b""), 16)
    same("2: a SessionKey of 31 bytes: 16", before, (call, chip[1:]), 16)
    same("2: a SessionKey of 33 bytes: 16", before, (call, b"\0" + chip), 16)
    same("2: PrivacyEnabled 2: 16", before, make(privacy=2), 16)
    case("2: PrivacyEnabled 1 is kept", before, make(privacy=1), [counter(2), sks.session_record(1, 1, 1, b"S1", b"C1", ONE, 0, 20, privacy=1)], 0, S1)
    case("2: ServerSessionID of 32 bytes", before, make(server=b"x" * 32), [counter(2), session(server=b"x" * 32)], 0, S1)
    case("2: ServerSessionID of 1 byte", before, make(server=b"x"), [counter(2), session(server=b"x")], 0, S1)
    same("2: ServerSessionID of 33 bytes: 16", before, make(server=b"x" * 33), 16)
    same("2: no ServerSessionID: 16", before, make(server=b""), 16)
    case("2: an ID of 0x21 and 0x7E", before, make(server=b"\x21\x7e"), [counter(2), session(server=b"\x21\x7e")], 0, S1)
    same("2: an ID with 0x20: 16", before, make(server=b"a b"), 16)
    same("2: an ID with 0x7F: 16", before, make(server=b"\x7f"), 16)
    case("2: ClientSessionID of 32 bytes", before, make(client=b"y" * 32), [counter(2), session(client=b"y" * 32)], 0, S1)
    case("2: ClientSessionID of 1 byte", before, make(client=b"y"), [counter(2), session(client=b"y")], 0, S1)
    case("2: ClientSessionID of 0x21 and 0x7E", before, make(client=b"\x21\x7e"), [counter(2), session(client=b"\x21\x7e")], 0, S1)
    same("2: ClientSessionID of 33 bytes: 16", before, make(client=b"y" * 33), 16)
    same("2: no ClientSessionID: 16", before, make(client=b""), 16)
    same("2: ClientSessionID with 0x7F: 16", before, make(client=b"\x7f"), 16)
    same("2: ClientSessionID with 0x20: 16", before, make(client=b"\x20"), 16)
    case("2: ServerEphemeralKey of 512 bytes", before, make(ephemeral=b"e" * 512), done, 0, S1)
    same("2: ServerEphemeralKey of 513 bytes: 16", before, make(ephemeral=b"e" * 513), 16)
    same("2: no ServerEphemeralKey: 16", before, make(ephemeral=b""), 16)
    case("2: IssuerURI of 1 byte", before, make(uri=b"u"), done, 0, S1)
    case("2: IssuerURI of 1,000 bytes", before, make(uri=b"u" * 1000), done, 0, S1)
    same("2: IssuerURI of 1,001 bytes: 16", before, make(uri=b"u" * 1001), 16)
    same("2: no IssuerURI: 16", before, make(uri=b""), 16)
    case("2: no KeyManagementKey", before, make(management=b""), [counter(2), session(managed=0)], 0, S1)
    case("2: KeyManagementKey of 512 bytes", before, make(management=b"k" * 512), done, 0, S1)
    same("2: KeyManagementKey of 513 bytes: 16", before, make(management=b"k" * 513), 16)
    same("2: another algorithm: 8", before, make(algorithm=sks.KEY_ALGORITHM), 8)
    same("2: an algorithm with another last byte: 8", before, make(algorithm=sks.SESSION_ALGORITHM[:-1] + b"2"), 8)
    same("2: an algorithm with a byte more: 8", before, make(algorithm=sks.SESSION_ALGORITHM + b"1"), 8)
    same("2: no algorithm: 8", before, make(algorithm=b""), 8)
    same("2: 16 comes before 8", before, make(algorithm=b"", server=b""), 16)
    same("2: limit 0: 17", before, make(limit=0), 17)
    same("2: 8 comes before 17", before, make(algorithm=b"", limit=0), 8)
    case("2: limit 1", before, make(limit=1), [counter(2), session(limit=1)], 0, S1)
    case("2: limit 2", before, make(limit=2), [counter(2), session(limit=2)], 0, S1)
    case("2: limit 65,535", before, make(limit=65535), [counter(2), session(limit=65535)], 0, S1)
    case("2: times are kept", before, make(time=0x01020304, life=0xFFFFFFFE), [counter(2), sks.session_record(1, 1, 1, b"S1", b"C1", ONE, 0, 20, time=0x01020304, life=0xFFFFFFFE)], 0, S1)
    case("2: the highest times", before, make(time=0xFFFFFFFF, life=0xFFFFFFFF), [counter(2), sks.session_record(1, 1, 1, b"S1", b"C1", ONE, 0, 20, time=0xFFFFFFFF, life=0xFFFFFFFF)], 0, S1)
    same("2: ClientSessionID of an open session: 17", opened(), make(), 17)
    same("2: ClientSessionID of a closed session: 17", two_tabs(), make(), 17)
    full = [counter(2), session()]
    same("2: no free record: 2", full, make(client=b"C2"), 2)
    same("2: 17 comes before 2", full, make(), 17)
    case("2: counter 65,535: the last session", [counter(65535), sks.FREE], make(), [counter(65536), session(65535, server=b"S1", client=b"C1")], 0, 65535 * 65536)
    same("2: counter 65,536: 2", [counter(65536), sks.FREE], make(), 2)
    case("2: the lowest free place", [counter(3), sks.FREE, session(2), sks.FREE], make(client=b"C3"), [counter(4), session(3, server=b"S1"), session(2), sks.FREE], 0, S3)


def methods_3_5():
    empty = opened()
    nonce = b"N"
    case("5: the session is gone", empty, sks.abort(S1), [counter(2)], 0)
    refused("5: a byte too many: 16", empty, (sks.abort(S1)[0] + b"\0", b""), 16)
    refused("5: chip bytes: 16", empty, (sks.abort(S1)[0], b"\0"), 16)
    same("5: no such session: 5", empty, sks.abort(S2), 5)
    same("5: handle 0: 5", empty, sks.abort(0), 5)
    same("5: an object's handle: 5", empty, sks.abort(S1 + 1), 5)
    same("5: a closed session: 5", two_tabs(), sks.abort(S1), 5)
    case("5: only its own records go", tabs_with_records(), sks.abort(S2), gone(tabs_with_records(), S2), 0)
    case("3: a session without keys is freed", empty, sks.close(S1, ONE, 0, b"C1"), [counter(2)], 0, 0, attested(ONE, 1, nonce))
    same("3: no such session: 5", empty, sks.close(S2, ONE, 0, b"C1"), 5)
    refused("3: no nonce: 16", empty, sks.close(S1, ONE, 0, b"C1", b""), 16)
    case("3: a nonce of 64 bytes", empty, sks.close(S1, ONE, 0, b"C1", b"n" * 64), [counter(2)], 0, 0, attested(ONE, 1, b"n" * 64))
    refused("3: a nonce of 65 bytes: 16", empty, sks.close(S1, ONE, 0, b"C1", b"n" * 65), 16)
    call, chip = sks.close(S1, ONE, 0, b"C1")
    refused("3: a byte too many: 16", empty, (call + b"\0", chip), 16)
    refused("3: a byte missing: 16", empty, (call[:-1], chip), 16)
    refused("3: chip bytes: 16", empty, (call, b"\0"), 16)
    refused("3: the last MAC byte differs: 3", empty, (call[:-1] + bytes([call[-1] ^ 1]), chip), 3)
    refused("3: the MAC of another counter: 3", empty, sks.close(S1, ONE, 1, b"C1"), 3)
    refused("3: the MAC of another ClientSessionID: 3", empty, sks.close(S1, ONE, 0, b"C2"), 3)
    refused("3: the MAC of another key: 3", empty, sks.close(S1, TWO, 0, b"C1"), 3)
    refused("3: limit 1: 17", opened(limit=1), sks.close(S1, ONE, 0, b"C1"), 17)
    case("3: limit 2", opened(limit=2), sks.close(S1, ONE, 0, b"C1"), [counter(2)], 0, 0, attested(ONE, 1, nonce))
    refused("3: the counter one below its limit: 17", opened(limit=20, counter=19), sks.close(S1, ONE, 19, b"C1"), 17)
    case("3: the counter two below its limit", opened(limit=20, counter=18), sks.close(S1, ONE, 18, b"C1"), [counter(2)], 0, 0, attested(ONE, 19, nonce))
    case("3: the counter reaches 65,535", opened(limit=65535, counter=65533), sks.close(S1, ONE, 65533, b"C1"), [counter(2)], 0, 0, attested(ONE, 65534, nonce))
    refused("3: the counter would pass 65,535: 17", opened(limit=65535, counter=65534), sks.close(S1, ONE, 65534, b"C1"), 17)
    refused("3: 16 comes before 17", opened(limit=1), sks.close(S1, ONE, 0, b"C1", b""), 16)
    refused("3: 17 comes before 3", opened(limit=1), sks.close(S1, TWO, 0, b"C1"), 17)
    ready = [counter(2), session(following=4, counter=5), PUK1, POL1, key1(), sks.FREE]
    shut = [counter(2), session(state=2, following=4, counter=7), PUK1, POL1, key1()]
    case("3: the SessionKey is zeroed, the session closed", ready, sks.close(S1, ONE, 5, b"C1"), shut, 0, 0, attested(ONE, 6, nonce))
    pathless = [counter(2), session(following=4, counter=5), PUK1, POL1, key1(path=0), sks.FREE]
    refused("3: a key without path: 6", pathless, sks.close(S1, ONE, 5, b"C1"), 6)
    refused("3: 3 comes before 6", pathless, sks.close(S1, TWO, 5, b"C1"), 3)
    refused("3: a policy without key: 6", [counter(2), session(following=3, counter=5), PUK1, POL1], sks.close(S1, ONE, 5, b"C1"), 6)
    refused("3: a PUK without policy: 6", [counter(2), session(following=2, counter=5), PUK1], sks.close(S1, ONE, 5, b"C1"), 6)
    stale = [counter(4)] + issued() + [session(2, following=2, counter=1), sks.pending_record(2, 1, 50, 0, stale=1), sks.FREE]
    refused("3: a stale pending: 6", stale, sks.close(S2, ONE, 1, b"C2"), 6, S2)


def methods_8_9():
    store = opened()

    def puk(**more):
        return sks.make_puk(**{**dict(session=S1, key=ONE, counter=0, name=b"puk", value=b"12345678"), **more})

    def after(r):
        return [counter(2), session(following=2, counter=1), r]

    case("8: done", store, puk(), after(PUK1), 0, S1 + 1)
    same("8: no such session: 5", store, puk(session=S2), 5)
    call, chip = puk()
    refused("8: a byte too many: 16", store, (call + b"\0", chip), 16)
    refused("8: a byte missing: 16", store, (call[:-1], chip), 16)
    refused("8: no ID: 16", store, puk(name=b""), 16)
    case("8: an ID of 32 bytes", store, puk(name=b"i" * 32), after(sks.puk_record(1, 1, b"i" * 32, b"12345678")), 0, S1 + 1)
    case("8: an ID of 1 byte", store, puk(name=b"i"), after(sks.puk_record(1, 1, b"i", b"12345678")), 0, S1 + 1)
    case("8: an ID of 0x21 and 0x7E", store, puk(name=b"\x21\x7e"), after(sks.puk_record(1, 1, b"\x21\x7e", b"12345678")), 0, S1 + 1)
    refused("8: an ID with 0x7F: 16", store, puk(name=b"\x7f"), 16)
    refused("8: an ID of 33 bytes: 16", store, puk(name=b"i" * 33), 16)
    refused("8: an ID with a blank: 16", store, puk(name=b"a b"), 16)
    refused("8: no EncryptedValue: 16", store, puk(encrypted=b""), 16)
    case("8: EncryptedValue of 1 byte", store, puk(encrypted=b"e"), after(PUK1), 0, S1 + 1)
    case("8: EncryptedValue of 64 bytes", store, puk(encrypted=b"e" * 64), after(PUK1), 0, S1 + 1)
    refused("8: EncryptedValue of 65 bytes: 16", store, puk(encrypted=b"e" * 65), 16)
    refused("8: no value: 16", store, puk(value=b""), 16)
    case("8: a value of 1 byte", store, puk(value=b"1"), after(sks.puk_record(1, 1, b"puk", b"1")), 0, S1 + 1)
    case("8: a value of 16 bytes", store, puk(value=b"1" * 16), after(sks.puk_record(1, 1, b"puk", b"1" * 16)), 0, S1 + 1)
    refused("8: a value of 17 bytes: 16", store, puk(value=b"1" * 17), 16)
    case("8: format 3, any bytes", store, puk(form=3, value=b"\0\xff"), after(sks.puk_record(1, 1, b"puk", b"\0\xff", form=3)), 0, S1 + 1)
    refused("8: format 4: 17", store, puk(form=4), 17)
    refused("8: format 0, a letter: 17", store, puk(value=b"1234567A"), 17)
    case("8: format 1, A and 9", store, puk(form=1, value=b"A9"), after(sks.puk_record(1, 1, b"puk", b"A9", form=1)), 0, S1 + 1)
    refused("8: format 1, a: 17", store, puk(form=1, value=b"a9"), 17)
    case("8: format 2, two bytes of UTF-8", store, puk(form=2, value=b"\xc3\xa9"), after(sks.puk_record(1, 1, b"puk", b"\xc3\xa9", form=2)), 0, S1 + 1)
    refused("8: format 2, a cut tail: 17", store, puk(form=2, value=b"\xc3"), 17)
    case("8: format 2, one, three and four bytes of UTF-8", store, puk(form=2, value=b"\x7f\xef\x80\xbf\xf7\x80\xbf\x80"), after(sks.puk_record(1, 1, b"puk", b"\x7f\xef\x80\xbf\xf7\x80\xbf\x80", form=2)), 0, S1 + 1)
    refused("8: format 2, a lead of 80: 17", store, puk(form=2, value=b"\x80"), 17)
    refused("8: format 2, a tail of C0: 17", store, puk(form=2, value=b"\xc3\xc0"), 17)
    refused("8: format 2, a lead of F8: 17", store, puk(form=2, value=b"\xf8\x80\x80\x80\x80"), 17)
    case("8: no pattern rule for a PUK", store, puk(value=b"1111"), after(sks.puk_record(1, 1, b"puk", b"1111")), 0, S1 + 1)
    case("8: retry limit 0", store, puk(retry=0), after(sks.puk_record(1, 1, b"puk", b"12345678", retry=0)), 0, S1 + 1)
    case("8: retry limit 255", store, puk(retry=255), after(sks.puk_record(1, 1, b"puk", b"12345678", retry=255)), 0, S1 + 1)
    taken = [counter(2), session(following=2, counter=1), PUK1] + [sks.FREE] * 3
    refused("8: an ID taken: 17", taken, puk(counter=1), 17)
    refused("8: the MAC differs in its first byte: 3", store, (call[:-32] + bytes([call[-32] ^ 1]) + call[-31:], chip), 3)
    refused("8: the MAC differs in its last byte: 3", store, (call[:-1] + bytes([call[-1] ^ 1]), chip), 3)
    refused("8: the MAC of another method: 3", store, (call[:-32] + sks.mac(ONE, b"createPINPolicy", 0, call[5:-32]), chip), 3)
    refused("8: the call sent again: 17", [counter(2), session(following=2, counter=1), PUK1, sks.FREE], (call, chip), 17)
    case("8: limit 1", opened(limit=1), puk(), [counter(2), session(following=2, counter=1, limit=1), PUK1], 0, S1 + 1)
    refused("8: the counter at its limit: 17", opened(limit=1, counter=1), puk(counter=1), 17)
    case("8: limit 2, the second use", opened(limit=2, counter=1), puk(counter=1), [counter(2), session(following=2, counter=2, limit=2), PUK1], 0, S1 + 1)
    case("8: the counter reaches 65,535", opened(limit=65535, counter=65534), puk(counter=65534), [counter(2), session(following=2, counter=65535, limit=65535), PUK1], 0, S1 + 1)
    refused("8: the counter would pass 65,535: 17", opened(limit=65535, counter=65535), puk(counter=65535), 17)
    case("8: object 999", opened(following=999), puk(), [counter(2), session(following=1000, counter=1), sks.puk_record(1, 999, b"puk", b"12345678")], 0, S1 + 999)
    refused("8: object 1,000: 2", opened(following=1000), puk(), 2)
    refused("8: no free record: 2", [counter(2), session()], puk(), 2)
    refused("8: 3 comes before 2", [counter(2), session()], puk(key=TWO), 3)

    with_puk = [counter(2), session(following=2, counter=1), PUK1] + [sks.FREE] * 4

    def pol(**more):
        return sks.make_policy(**{**dict(session=S1, key=ONE, counter=1, name=b"pol", puk=S1 + 1, puk_name=b"puk"), **more})

    def behind(**more):
        return [counter(2), session(following=3, counter=2), PUK1, sks.policy_record(1, 2, b"pol", **{**dict(puk=S1 + 1), **more})]

    case("9: done", with_puk, pol(), behind(), 0, S1 + 2)
    case("9: without PUK", with_puk, pol(puk=0, puk_name=sks.NA), behind(puk=0), 0, S1 + 2)
    same("9: no such session: 5", with_puk, pol(session=S2), 5)
    call, chip = pol()
    refused("9: a byte too many: 16", with_puk, (call + b"\0", chip), 16)
    refused("9: chip bytes: 16", with_puk, (call, b"\0"), 16)
    refused("9: a byte missing: 16", with_puk, (call[:-1], chip), 16)
    refused("9: no ID: 16", with_puk, pol(name=b""), 16)

    def named(name):
        return [counter(2), session(following=3, counter=2), PUK1, sks.policy_record(1, 2, name, puk=S1 + 1)]

    for name, what in ((b"i", "1 byte"), (b"i" * 32, "32 bytes"), (b"\x21\x7e", "0x21 and 0x7E")):
        case(f"9: an ID of {what}", with_puk, pol(name=name), named(name), 0, S1 + 2)
    for name, what in ((b"i" * 33, "of 33 bytes"), (b"\x20", "with 0x20"), (b"\x7f", "with 0x7F")):
        refused(f"9: an ID {what}: 16", with_puk, pol(name=name), 16)
    case("9: UserDefined 0, UserModifiable 0", with_puk, pol(defined=0, modifiable=0), behind(defined=0, modifiable=0), 0, S1 + 2)
    refused("9: UserDefined 2: 16", with_puk, pol(defined=2), 16)
    refused("9: UserModifiable 2: 16", with_puk, pol(modifiable=2), 16)
    refused("9: an ID taken by the PUK: 17", with_puk, pol(name=b"puk"), 17)
    refused("9: a PUK that is not there: 17", with_puk, pol(puk=S1 + 2), 17)
    refused("9: a policy's handle for a PUK's: 17", [counter(2), session(following=3, counter=2), PUK1, POL1, sks.FREE], pol(counter=2, name=b"pol2", puk=S1 + 2, puk_name=b"pol"), 17)
    refused("9: another session's PUK: 17", [counter(3), session(following=2, counter=1), PUK1, session(2), sks.FREE], pol(session=S2, counter=0), 17, S2)
    case("9: format 3", with_puk, pol(form=3), behind(form=3), 0, S1 + 2)
    refused("9: format 4: 17", with_puk, pol(form=4), 17)
    refused("9: retry limit 0: 17", with_puk, pol(retry=0), 17)
    case("9: retry limit 1", with_puk, pol(retry=1), behind(retry=1), 0, S1 + 2)
    case("9: retry limit 255", with_puk, pol(retry=255), behind(retry=255), 0, S1 + 2)
    case("9: grouping 1", with_puk, pol(grouping=1), behind(grouping=1), 0, S1 + 2)
    refused("9: grouping 2: 17", with_puk, pol(grouping=2), 17)
    case("9: patterns 7", with_puk, pol(patterns=7), behind(patterns=7), 0, S1 + 2)
    refused("9: patterns 8: 17", with_puk, pol(patterns=8), 17)
    refused("9: min 0: 17", with_puk, pol(low=0), 17)
    case("9: min 1, max 1", with_puk, pol(low=1, high=1), behind(low=1, high=1), 0, S1 + 2)
    refused("9: min above max: 17", with_puk, pol(low=9), 17)
    case("9: min 16, max 16", with_puk, pol(low=16, high=16), behind(low=16, high=16), 0, S1 + 2)
    refused("9: max 17: 17", with_puk, pol(high=17), 17)
    refused("9: InputMethod 1: 17", with_puk, pol(inputs=1), 17)
    policy = sks.policy_record(1, 2, b"pol", puk=S1 + 1)
    case("9: the counter one below its limit", put(with_puk, 1, session(following=2, counter=1, limit=2)), pol(), [counter(2), session(following=3, counter=2, limit=2), PUK1, policy], 0, S1 + 2)
    refused("9: the counter at its limit: 17", put(with_puk, 1, session(following=2, counter=1, limit=1)), pol(), 17)
    case("9: object 999", put(with_puk, 1, session(following=999, counter=1)), pol(), [counter(2), session(following=1000, counter=2), PUK1, sks.policy_record(1, 999, b"pol", puk=S1 + 1)], 0, S1 + 999)
    refused("9: object 1,000: 2", put(with_puk, 1, session(following=1000, counter=1)), pol(), 2)
    refused("9: no free record: 2", with_puk[:3], pol(), 2)
    refused("9: 3 comes before 2", with_puk[:3], pol(key=TWO), 3)
    refused("9: 17 comes before 3", with_puk, pol(form=4, key=TWO), 17)
    refused("9: the MAC says no PUK: 3", with_puk, pol(puk_name=sks.NA), 3)
    refused("9: the counter of the call before: 3", with_puk, pol(counter=0), 3)


def methods_10_12():
    store = [counter(2), session(following=3, counter=2), PUK1, POL1] + [sks.FREE] * 4

    def key(**more):
        return sks.make_key(**{**dict(session=S1, key=ONE, counter=2, name=b"key", public=PUBLIC, policy=S1 + 2, policy_name=b"pol", pin_value=b"1245", deletion=2), **more})

    def behind(r, base=None):
        base = base or store
        return put(put(base, 1, session(following=4, counter=4)), 4, r)

    told = attested(ONE, 3, b"key", PUBLIC)
    case("10: done", store, key(), behind(key1(path=0)), 0, S1 + 3, told)
    same("10: no such session: 5", store, key(session=S2), 5)
    call, chip = key()
    refused("10: a byte too many: 16", store, (call + b"\0", chip), 16)
    refused("10: a chip byte too many: 16", store, (call, chip + b"\0"), 16)
    refused("10: no public key: 16", store, key(public=b""), 16)
    case("10: a public key of 96 bytes", store, key(public=b"p" * 96), behind(sks.key_record(1, 3, b"key", b"p" * 96, policy=S1 + 2, pin=b"1245", deletion=2)), 0, S1 + 3, attested(ONE, 3, b"key", b"p" * 96))
    refused("10: a public key of 97 bytes: 16", store, key(public=b"p" * 97), 16)
    case("10: a public key of 1 byte", store, key(public=b"p"), behind(sks.key_record(1, 3, b"key", b"p", policy=S1 + 2, pin=b"1245", deletion=2)), 0, S1 + 3, attested(ONE, 3, b"key", b"p"))
    refused("10: a byte missing: 16", store, (call[:-1], chip), 16)
    refused("10: no ID: 16", store, key(name=b""), 16)
    for name, what in ((b"i", "1 byte"), (b"i" * 32, "32 bytes"), (b"\x21\x7e", "0x21 and 0x7E")):
        case(f"10: an ID of {what}", store, key(name=name), behind(key1(path=0, name=name)), 0, S1 + 3, attested(ONE, 3, name, PUBLIC))
    for name, what in ((b"i" * 33, "of 33 bytes"), (b"\x20", "with 0x20"), (b"\x7f", "with 0x7F")):
        refused(f"10: an ID {what}: 16", store, key(name=name), 16)
    refused("10: EnablePINCaching 2: 16", store, key(caching=2), 16)
    case("10: ServerSeed of 64 bytes", store, key(seed=b"s" * 64), behind(key1(path=0)), 0, S1 + 3, told)
    refused("10: ServerSeed of 65 bytes: 16", store, key(seed=b"s" * 65), 16)
    case("10: FriendlyName of 100 bytes", store, key(friendly=b"f" * 100), behind(key1(path=0)), 0, S1 + 3, told)
    refused("10: FriendlyName of 101 bytes: 16", store, key(friendly=b"f" * 101), 16)
    refused("10: KeyParameters of 9 bytes: 16", store, key(parameters=b"p" * 9), 16)
    refused("10: KeyParameters of 8 bytes: 17", store, key(parameters=b"p" * 8), 17)
    refused("10: KeyParameters of 1 byte: 17", store, key(parameters=b"p"), 17)
    refused("10: PINValue of 65 bytes: 16", store, key(pin_value=b"1" * 65), 16)
    refused("10: PINValue of 64 bytes, the user's: 17", store, key(pin_value=b"1" * 64), 17)
    refused("10: an opened PIN of 17 bytes: 16", store, key(opened=b"1" * 17), 16)
    refused("10: another KeyEntryAlgorithm: 8", store, key(algorithm=sks.SESSION_ALGORITHM), 8)
    refused("10: another KeyAlgorithm: 8", store, key(key_algorithm=b"urn:oid:1.3.132.0.34"), 8)
    refused("10: EndorsedAlgorithms 1: 8", store, key(endorsed=1), 8)
    refused("10: EndorsedAlgorithms 256: 8", store, key(endorsed=256), 8)
    refused("10: a KeyEntryAlgorithm with another last byte: 8", store, key(algorithm=sks.KEY_ALGORITHM[:-1] + b"2"), 8)
    refused("10: a KeyAlgorithm with a byte more: 8", store, key(key_algorithm=sks.P256 + b"7"), 8)
    refused("10: 16 comes before 8", store, key(endorsed=1, name=b""), 16)
    refused("10: 8 comes before 17", store, key(endorsed=1, export=4), 8)
    refused("10: an ID taken: 17", store, key(name=b"pol"), 17)
    refused("10: a policy that is not there: 17", store, key(policy=S1 + 1), 17)
    apart = [counter(3), session(following=3, counter=2), PUK1, POL1, session(2, counter=2), sks.FREE]
    refused("10: another session's policy: 17", apart, key(session=S2), 17, S2)
    refused("10: BiometricProtection 1: 17", store, key(biometric=1), 17)
    case("10: ExportProtection 3, AppUsage 255, caching 1", store, key(export=3, usage=255, caching=1), behind(sks.key_record(1, 3, b"key", PUBLIC, policy=S1 + 2, pin=b"1245", deletion=2, caching=1, export=3, usage=255)), 0, S1 + 3, told)
    refused("10: ExportProtection 4: 17", store, key(export=4), 17)
    case("10: DeleteProtection 1 with a PIN", store, key(deletion=1), behind(key1(path=0, deletion=1)), 0, S1 + 3, told)
    case("10: DeleteProtection 3", store, key(deletion=3), behind(key1(path=0, deletion=3)), 0, S1 + 3, told)
    refused("10: DeleteProtection 4: 17", store, key(deletion=4), 17)
    bare = dict(policy=0, policy_name=sks.NA, pin_value=b"")
    case("10: no policy, no PIN", store, key(**bare, deletion=0), behind(key1(path=0, deletion=0, pin=b"", policy=0)), 0, S1 + 3, told)
    refused("10: DeleteProtection 1 without PIN: 17", store, key(**bare, deletion=1), 17)
    refused("10: DeleteProtection 2 without policy: 17", store, key(**bare, deletion=2), 17)
    pukless = put(store, 3, sks.policy_record(1, 2, b"pol"))
    refused("10: DeleteProtection 2 without PUK: 17", pukless, key(), 17)
    refused("10: PINValue without policy: 17", store, key(policy=0, policy_name=sks.NA, pin_value=b"1", deletion=0), 17)
    refused("10: an opened PIN without policy: 17", store, key(**bare, deletion=0, opened=b"1"), 17)
    refused("10: an opened PIN where the user defines it: 17", store, key(opened=b"1245"), 17)
    refused("10: no PIN under a policy: 17", store, key(pin_value=b""), 17)
    refused("10: a PIN shorter than min: 17", store, key(pin_value=b"124"), 17)
    case("10: a PIN of max", store, key(pin_value=b"12451245"), behind(key1(path=0, pin=b"12451245")), 0, S1 + 3, told)
    refused("10: a PIN longer than max: 17", store, key(pin_value=b"124512451"), 17)
    refused("10: a letter under format 0: 17", store, key(pin_value=b"124A"), 17)
    for patterns, pin, fits in ((4, b"1234", 0), (4, b"4321", 0), (4, b"1245", 1), (4, b"7", 1), (1, b"1123", 0), (1, b"1212", 1), (2, b"5111", 0), (2, b"1122", 1)):
        strict = put(store, 3, sks.policy_record(1, 2, b"pol", puk=S1 + 1, patterns=patterns, low=1))
        what = f"10: patterns {patterns}, {pin.decode()}"
        if fits:
            case(what + " passes", strict, key(pin_value=pin), behind(key1(path=0, pin=pin), strict), 0, S1 + 3, told)
        else:
            refused(what + ": 17", strict, key(pin_value=pin), 17)
    sets = put(store, 3, sks.policy_record(1, 2, b"pol", puk=S1 + 1, defined=0))
    case("10: the issuer sets the PIN, the chip opens it", sets, key(pin_value=b"SEALED", pin_in_mac=b"SEALED", opened=b"1245"), behind(key1(path=0), sets), 0, S1 + 3, told)
    for value, what in ((b"s", "1 byte"), (b"s" * 64, "64 bytes")):
        case(f"10: the issuer's PINValue of {what}", sets, key(pin_value=value, pin_in_mac=value, opened=b"1245"), behind(key1(path=0), sets), 0, S1 + 3, told)
    wide = put(store, 3, sks.policy_record(1, 2, b"pol", puk=S1 + 1, defined=0, low=1, high=16))
    for pin, what in ((b"7", "1 byte"), (b"1" * 16, "16 bytes")):
        case(f"10: an opened PIN of {what}", wide, key(pin_value=b"SEALED", pin_in_mac=b"SEALED", opened=pin), behind(key1(path=0, pin=pin), wide), 0, S1 + 3, told)
    refused("10: an opened PIN of no bytes: 17", wide, key(pin_value=b"SEALED", pin_in_mac=b"SEALED"), 17)
    refused("10: an empty PINValue where the issuer sets it: 17", sets, key(pin_value=b"", pin_in_mac=b"", opened=b"1245"), 17)
    refused("10: an opened PIN that breaks the rule: 17", sets, key(pin_value=b"SEALED", pin_in_mac=b"SEALED", opened=b"12A5"), 17)
    refused("10: the MAC leaves PINValue out: 3", sets, key(pin_value=b"SEALED", opened=b"1245"), 3)
    refused("10: the MAC puts the user's PIN in: 3", store, key(pin_in_mac=b"1245"), 3)
    shared = [counter(2), session(following=4, counter=2), PUK1, sks.policy_record(1, 2, b"pol", puk=S1 + 1, grouping=1), key1(path=0), sks.FREE]
    case("10: a shared policy, the same PIN", shared, key(name=b"two"), [counter(2), session(following=5, counter=4), PUK1, shared[3], key1(path=0), key1(path=0, obj=4, name=b"two")], 0, S1 + 4, attested(ONE, 3, b"two", PUBLIC))
    refused("10: a shared policy, another PIN: 17", shared, key(name=b"two", pin_value=b"9875"), 17)
    refused("10: limit 1 short: 17", [counter(2), session(following=3, counter=2, limit=3), PUK1, POL1, sks.FREE], key(), 17)
    case("10: limit just enough", [counter(2), session(following=3, counter=2, limit=4), PUK1, POL1, sks.FREE], key(), [counter(2), session(following=4, counter=4, limit=4), PUK1, POL1, key1(path=0)], 0, S1 + 3, told)
    free = dict(counter=0, policy=0, policy_name=sks.NA, pin_value=b"", deletion=0)
    refused("10: limit 1: 17", opened(limit=1), key(**free), 17)
    case("10: limit 2", opened(limit=2), key(**free), [counter(2), session(following=2, counter=2, limit=2), sks.key_record(1, 1, b"key", PUBLIC)], 0, S1 + 1, attested(ONE, 1, b"key", PUBLIC))
    refused("10: the MAC differs: 3", store, (call[:-1] + bytes([call[-1] ^ 1]), chip), 3)
    refused("10: no free record: 2", store[:4], key(), 2)
    case("10: object 999", put(store, 1, session(following=999, counter=2)), key(), [counter(2), session(following=1000, counter=4), PUK1, POL1, key1(path=0, obj=999)], 0, S1 + 999, told)
    refused("10: object 1,000: 2", put(store, 1, session(following=1000, counter=2)), key(), 2)
    refused("10: 17 comes before 3", store, key(export=4, key=TWO), 17)
    refused("10: 3 comes before 2", store[:4], key(key=TWO), 3)

    unset = [counter(2), session(following=4, counter=4), PUK1, POL1, key1(path=0), sks.FREE]

    def path(**more):
        return sks.set_path(**{**dict(session=S1, key=ONE, counter=4, target=S1 + 3, name=b"key", public=PUBLIC, certificates=[CERT, b"CA"]), **more})

    set_ = [counter(2), session(following=4, counter=5), PUK1, POL1, key1()]
    case("12: done, the first certificate's digest", unset, path(), set_, 0)
    case("12: one certificate", unset, path(certificates=[CERT]), set_, 0)
    case("12: a certificate of 1 byte", unset, path(certificates=[b"c"]), put(set_, 4, sks.key_record(1, 3, b"key", PUBLIC, policy=S1 + 2, pin=b"1245", path=1, deletion=2, digest=hashlib.sha256(b"c").digest())), 0)
    case("12: 255 certificates", unset, path(certificates=[CERT] + [b"x"] * 254), set_, 0)
    same("12: no such session: 5", unset, path(session=S2), 5)
    refused("12: no certificate: 16", unset, path(certificates=[]), 16)
    refused("12: an empty certificate: 16", unset, path(certificates=[CERT, b""]), 16)
    call, chip = path()
    refused("12: a byte too many: 16", unset, (call + b"\0", chip), 16)
    refused("12: a count one too high: 16", unset, (call[:9] + b"\x03" + call[10:], chip), 16)
    refused("12: chip bytes: 16", unset, (call, b"\0"), 16)
    refused("12: no such key: 7", unset, path(target=S1 + 4), 7)
    refused("12: a policy's handle: 7", unset, path(target=S1 + 2), 7)
    refused("12: a key of a closed session: 7", two_tabs(), path(session=S2, counter=0, target=K), 7, S2)
    refused("12: a path set twice: 17", [counter(2), session(following=4, counter=5), PUK1, POL1, key1(), sks.FREE], path(counter=5), 17)
    refused("12: the counter at its limit: 17", put(unset, 1, session(following=4, counter=4, limit=4)), path(), 17)
    case("12: the counter one below its limit", put(unset, 1, session(following=4, counter=4, limit=5)), path(), put(set_, 1, session(following=4, counter=5, limit=5)), 0)
    refused("12: 7 comes before 17", put(unset, 1, session(following=4, counter=4, limit=4)), path(target=S1 + 4), 7)
    refused("12: 16 comes before 7", unset, path(target=S1 + 4, certificates=[]), 16)
    refused("12: 17 comes before 3", put(unset, 1, session(following=4, counter=4, limit=4)), path(key=TWO), 17)
    refused("12: the MAC differs: 3", unset, path(public=b"OTHER"), 3)
    case("12: no record is needed: a full store", unset[:5], path(), set_, 0)


def methods_50_51():
    store = two_tabs(errors=1)

    def behind(op, base=None):
        base = base or store
        return put(put(base, 5, session(2, following=2, counter=1)), 7, sks.pending_record(2, 1, op, K))

    for op, name in ((50, b"postDeleteKey"), (51, b"postUnlockKey")):
        def ask(**more):
            return sks.post(**{**dict(method=op, session=S2, key=ONE, counter=0, target=K), **more})

        case(f"{op}: done", store, ask(), behind(op), 0)
        same(f"{op}: no such session: 5", store, ask(session=sks.handle(9)), 5)
        call, chip = ask()
        refused(f"{op}: a byte too many: 16", store, (call + b"\0", chip), 16, S2)
        refused(f"{op}: no chip byte: 16", store, (call, b""), 16, S2)
        refused(f"{op}: two chip bytes: 16", store, (call, b"\1\1"), 16, S2)
        refused(f"{op}: chip byte 2: 16", store, (call, b"\2"), 16, S2)
        refused(f"{op}: no Authorization: 16", store, ask(authorization=b""), 16, S2)
        case(f"{op}: Authorization of 1 byte", store, ask(authorization=b"a"), behind(op), 0)
        case(f"{op}: Authorization of 512 bytes", store, ask(authorization=b"a" * 512), behind(op), 0)
        refused(f"{op}: Authorization of 513 bytes: 16", store, ask(authorization=b"a" * 513), 16, S2)
        refused(f"{op}: no such key: 7", store, ask(target=S1 + 4), 7, S2)
        refused(f"{op}: handle 0: 7", store, ask(target=0), 7, S2)
        refused(f"{op}: a policy's handle: 7", store, ask(target=S1 + 2), 7, S2)
        own = [counter(2), session(following=4, counter=4), PUK1, POL1, key1(), sks.FREE]
        refused(f"{op}: a key of its own open session: 7", own, ask(session=S1, counter=4, target=S1 + 3), 7, S1)
        unmanaged = put(store, 1, session(state=2, following=4, counter=7, managed=0))
        refused(f"{op}: a target without KeyManagementKey: 17", unmanaged, ask(), 17, S2)
        pinless = [counter(4), session(state=2, following=4, counter=7), sks.FREE, sks.FREE, key1(deletion=0, pin=b"", policy=0), session(2), session(3, key=TWO), sks.FREE]
        if op == 51:
            refused("51: a target without PIN: 17", pinless, ask(), 17, S2)
        else:
            case("50: a target without PIN", pinless, ask(), put(put(put(pinless, 5, session(2, following=2, counter=1)), 2, sks.pending_record(2, 1, 50, K)), 3, sks.FREE), 0)
        refused(f"{op}: already pending here: 17", behind(50), ask(counter=1), 17, S2)
        refused(f"{op}: already pending here, the other operation: 17", behind(51), ask(counter=1), 17, S2)
        other = put(put(store, 6, session(3, key=TWO, following=2, counter=1)), 7, sks.pending_record(3, 1, 50, K))
        case(f"{op}: pending in another session: nobody waits", other, ask(), put(put(other, 5, session(2, following=2, counter=1)), 8, sks.pending_record(2, 1, op, K)), 0)
        stale = put(put(store, 5, session(2, following=2, counter=1)), 7, sks.pending_record(2, 1, 50, 0, stale=1))
        case(f"{op}: a stale one blocks nothing, and stays stale", stale, ask(counter=1), put(put(stale, 5, session(2, following=3, counter=2)), 8, sks.pending_record(2, 2, op, K)), 0)
        refused(f"{op}: the counter at its limit: 17", put(store, 5, session(2, limit=1, counter=1)), ask(counter=1), 17, S2)
        case(f"{op}: limit 1", put(store, 5, session(2, limit=1)), ask(), put(behind(op), 5, session(2, following=2, counter=1, limit=1)), 0)
        refused(f"{op}: 16 comes before 7", store, ask(target=0, authorization=b""), 16, S2)
        refused(f"{op}: 7 comes before 17", put(store, 5, session(2, limit=1, counter=1)), ask(counter=1, target=0), 7, S2)
        refused(f"{op}: 17 comes before 3", put(store, 5, session(2, limit=1, counter=1)), ask(counter=1, key=TWO), 17, S2)
        refused(f"{op}: the MAC differs: 3", store, (call[:-1] + bytes([call[-1] ^ 1]), chip), 3, S2)
        refused(f"{op}: the signature did not verify: 4", store, ask(verified=0), 4, S2)
        refused(f"{op}: 3 comes before 4", store, ask(verified=0, key=TWO), 3, S2)
        refused(f"{op}: no free record: 2", store[:7], ask(), 2, S2)
        case(f"{op}: object 999", put(store, 5, session(2, following=999)), ask(), put(put(store, 5, session(2, following=1000, counter=1)), 7, sks.pending_record(2, 999, op, K)), 0)
        refused(f"{op}: object 1,000: 2", put(store, 5, session(2, following=1000)), ask(), 2, S2)
        refused(f"{op}: 4 comes before 2", store[:7], ask(verified=0), 4, S2)
    both = put(put(behind(50), 6, session(3, key=TWO, following=2, counter=1)), 8, sks.pending_record(3, 1, 51, K))
    told = attested(TWO, 2, b"N")
    unlocked = [counter(4)] + issued() + [session(2, following=2, counter=1), sks.FREE, sks.pending_record(2, 1, 50, 0, stale=1), sks.FREE, sks.FREE]
    case("3: the unlock closes first, the removal is stale", both, sks.close(S3, TWO, 1, b"C3"), unlocked, 0, 0, told)
    refused("3: the removal comes second: 6", unlocked, sks.close(S2, ONE, 1, b"C2"), 6, S2)
    removed = [counter(4)] + [sks.FREE] * 5 + [session(3, key=TWO, following=2, counter=1), sks.FREE, sks.pending_record(3, 1, 51, 0, stale=1)]
    case("3: the removal closes first: key, policy, PUK and closed session go", both, sks.close(S2, ONE, 1, b"C2"), removed, 0, 0, attested(ONE, 2, b"N"))
    refused("3: the unlock comes second: 6", removed, sks.close(S3, TWO, 1, b"C3"), 6, S3)
    anew = put(put(unlocked, 5, session(2, following=3, counter=2)), 8, sks.pending_record(2, 2, 50, K))
    refused("3: stale, then posted anew, then closed: 6", anew, sks.close(S2, ONE, 2, b"C2"), 6, S2)


def users():
    def store(**more):
        return [counter(2)] + issued(**more) + [sks.FREE]

    right, wrong, puk = b"1245", b"9999", b"12345678"
    for m in (80, 82, 83, 100):
        values = (right, b"8642") if m == 83 else (right,)
        call, chip = sks.user(m, K, *values)
        same(f"{m}: a byte too many: 16", store(), (call + b"\0", chip), 16)
        same(f"{m}: a byte missing: 16", store(), (call[:-1], chip), 16)
        same(f"{m}: chip bytes: 16", store(), (call, b"\0"), 16)
        same(f"{m}: a value of 17 bytes: 16", store(), sks.user(m, K, *((b"1" * 17,) + values[1:])), 16)
        same(f"{m}: no such key: 7", store(), sks.user(m, S1 + 9, *values), 7)
        same(f"{m}: a key of an open session: 7", [counter(2), session(following=4, counter=4), PUK1, POL1, key1(), sks.FREE], sks.user(m, K, *values), 7)
        same(f"{m}: handle 0: 7", store(), sks.user(m, 0, *values), 7)
        same(f"{m}: a policy's handle: 7", store(), sks.user(m, S1 + 2, *values), 7)
        same(f"{m}: 16 comes before 7", store(), (sks.user(m, S1 + 9, *values)[0] + b"\0", b""), 16)
    same("83: a new value of 17 bytes: 16", store(), sks.user(83, K, right, b"1" * 17), 16)
    # values of 16 bytes
    long_pin, long_puk, new_pin = b"1234567890123456", b"6543210987654321", b"8642864286428642"
    wide = [counter(2), session(state=2, following=4, counter=7), sks.puk_record(1, 1, b"puk", long_puk, errors=1), sks.policy_record(1, 2, b"pol", puk=S1 + 1, low=1, high=16), key1(pin=long_pin), sks.FREE]
    whole = put(wide, 2, sks.puk_record(1, 1, b"puk", long_puk))
    case("100: a value of 16 bytes", wide, sks.user(100, K, long_pin), wide, 0)
    case("100: a value of 16 bytes, the last differs", wide, sks.user(100, K, long_pin[:-1] + b"7"), put(wide, 4, key1(pin=long_pin, errors=1)), 1)
    case("80: a value of 16 bytes", wide, sks.user(80, K, long_puk), [counter(2)], 0)
    case("82: a value of 16 bytes", wide, sks.user(82, K, long_puk), whole, 0)
    case("83: a value and a new value of 16 bytes", wide, sks.user(83, K, long_pin, new_pin), put(wide, 4, key1(pin=new_pin)), 0)
    case("83: a new value of 1 byte: nothing of the old one stays behind it", wide, sks.user(83, K, long_pin, b"7"), put(wide, 4, key1(pin=b"7")), 0)
    # 100
    case("100: right", store(), sks.user(100, K, right), store(), 0)
    case("100: right clears the count", store(errors=2), sks.user(100, K, right), store(), 0)
    case("100: wrong counts", store(), sks.user(100, K, wrong), store(errors=1), 1)
    case("100: limit 3, two wrong, then right", store(errors=2), sks.user(100, K, right), store(), 0)
    case("100: the third wrong one", store(errors=2), sks.user(100, K, wrong), store(errors=3), 1)
    same("100: limit 3, three wrong, then right: 1", store(errors=3), sks.user(100, K, right), 1)
    same("100: locked and wrong: no further count", store(errors=3), sks.user(100, K, wrong), 1)
    case("100: an empty value is wrong", store(), sks.user(100, K, b""), store(errors=1), 1)
    case("100: a longer value is wrong", store(), sks.user(100, K, right + b"0"), store(errors=1), 1)
    def tried(limit, errors):
        return put(put(store(), 3, sks.policy_record(1, 2, b"pol", puk=S1 + 1, retry=limit)), 4, key1(errors=errors))

    case("100: limit 1, wrong", tried(1, 0), sks.user(100, K, wrong), tried(1, 1), 1)
    same("100: limit 1, one wrong, then right: 1", tried(1, 1), sks.user(100, K, right), 1)
    case("100: limit 255, wrong after 254", tried(255, 254), sks.user(100, K, wrong), tried(255, 255), 1)
    case("100: limit 255, right after 254", tried(255, 254), sks.user(100, K, right), tried(255, 0), 0)
    same("100: limit 255, right after 255: 1", tried(255, 255), sks.user(100, K, right), 1)
    bare = [counter(2), session(state=2, following=4, counter=7), key1(deletion=0, pin=b"", policy=0), sks.FREE]
    case("100: a key without PIN, no value", bare, sks.user(100, K, b""), bare, 0)
    same("100: a key without PIN, a value: 1", bare, sks.user(100, K, b"1"), 1)
    # 80
    left = [counter(2)]
    case("80: protection 2, the right PUK: all go", store(), sks.user(80, K, puk), left, 0)
    case("80: protection 2, a wrong PUK counts there", store(), sks.user(80, K, right), store(puk_errors=1), 1)
    same("80: protection 2, the PUK locked: 1", store(puk_errors=3), sks.user(80, K, puk), 1)
    case("80: protection 2, an empty value is wrong", store(), sks.user(80, K, b""), store(puk_errors=1), 1)
    case("80: PUK limit 255, wrong after 254", store(puk_retry=255, puk_errors=254), sks.user(80, K, wrong), store(puk_retry=255, puk_errors=255), 1)
    case("80: protection 2, the key's count plays no part", store(errors=3), sks.user(80, K, puk), left, 0)
    case("80: PUK limit 0 keeps no count", store(puk_retry=0), sks.user(80, K, wrong), store(puk_retry=0), 1)
    case("80: protection 1, the right PIN", store(deletion=1), sks.user(80, K, right), left, 0)
    case("80: protection 1, a wrong PIN counts", store(deletion=1), sks.user(80, K, wrong), store(deletion=1, errors=1), 1)
    same("80: protection 1, locked: 1", store(deletion=1, errors=3), sks.user(80, K, right), 1)
    case("80: protection 0, no value", store(deletion=0), sks.user(80, K, b""), left, 0)
    same("80: protection 0, even the right PIN: 1", store(deletion=0), sks.user(80, K, right), 1)
    same("80: protection 3: 17", store(deletion=3), sks.user(80, K, right), 17)
    same("80: 17 comes before 1", store(deletion=3, errors=3), sks.user(80, K, wrong), 17)
    sibling = key1(obj=4, name=b"two")
    pair = [counter(2), session(state=2, following=5, counter=9), PUK1, POL1, key1(), sibling]
    case("80: another key under the policy: only the key goes", pair, sks.user(80, K, puk), [counter(2), pair[1], PUK1, POL1, sks.FREE, sibling], 0)
    # two policies under one PUK
    pol2, key2 = sks.policy_record(1, 4, b"pol2", puk=S1 + 1), key1(obj=5, name=b"key2", policy=S1 + 4)
    two = [counter(2), session(state=2, following=6, counter=9), sks.puk_record(1, 1, b"puk", puk, errors=2), POL1, key1(), pol2, key2, sks.FREE]
    case("80: two policies under one PUK: the PUK stays, its count cleared", two, sks.user(80, K, puk),
         [counter(2), two[1], PUK1, sks.FREE, sks.FREE, pol2, key2], 0)
    # pendings on a key that goes
    watched = [counter(4)] + issued() + [session(2, following=2, counter=1), sks.pending_record(2, 1, 51, K), sks.FREE]
    case("80: a pending on the key becomes stale", watched, sks.user(80, K, puk), [counter(4)] + [sks.FREE] * 4 + [watched[5], sks.pending_record(2, 1, 51, 0, stale=1)], 0)
    # 82
    case("82: right clears both counts", store(errors=3, puk_errors=2), sks.user(82, K, puk), store(), 0)
    case("82: wrong counts at the PUK", store(errors=3), sks.user(82, K, wrong), store(errors=3, puk_errors=1), 1)
    case("82: an empty value is wrong", store(errors=3), sks.user(82, K, b""), store(errors=3, puk_errors=1), 1)
    case("82: the third wrong one", store(puk_errors=2), sks.user(82, K, wrong), store(puk_errors=3), 1)
    case("82: PUK limit 0, wrong: no count", store(errors=3, puk_retry=0), sks.user(82, K, wrong), store(errors=3, puk_retry=0), 1)
    same("82: the PUK locked: 1", store(errors=3, puk_errors=3), sks.user(82, K, puk), 1)
    case("82: PUK limit 0 never locks", store(errors=3, puk_retry=0), sks.user(82, K, puk), store(puk_retry=0), 0)
    same("82: a key without policy: 17", bare, sks.user(82, K, puk), 17)
    pukless = [counter(2), session(state=2, following=4, counter=7), sks.policy_record(1, 2, b"pol"), key1(deletion=1), sks.FREE]
    same("82: a policy without PUK: 17", pukless, sks.user(82, K, puk), 17)
    case("82: a pending on the key becomes stale", watched, sks.user(82, K, puk), put(watched, 6, sks.pending_record(2, 1, 51, 0, stale=1)), 0)
    # 83
    def after(pin=b"8642", **more):
        return put(store(**more), 4, key1(pin=pin))

    case("83: right, the count cleared", store(errors=2), sks.user(83, K, right, b"8642"), after(), 0)
    case("83: wrong counts", store(), sks.user(83, K, wrong, b"8642"), store(errors=1), 1)
    case("83: an empty value is wrong", store(), sks.user(83, K, b"", b"8642"), store(errors=1), 1)
    case("83: the third wrong one", store(errors=2), sks.user(83, K, wrong, b"8642"), store(errors=3), 1)
    case("83: a new PIN of max", store(), sks.user(83, K, right, b"86428642"), after(b"86428642"), 0)
    same("83: a new PIN longer than max: 17", store(), sks.user(83, K, right, b"864286428"), 17)
    same("83: a new PIN shorter than min: 17", store(), sks.user(83, K, right, b"864"), 17)
    same("83: a new PIN with a letter: 17", store(), sks.user(83, K, right, b"864A"), 17)
    strict = put(store(), 3, sks.policy_record(1, 2, b"pol", puk=S1 + 1, patterns=1))
    same("83: a new PIN with two equal neighbours: 17", strict, sks.user(83, K, right, b"8664"), 17)
    case("83: a new PIN without", strict, sks.user(83, K, right, b"8686"), put(strict, 4, key1(pin=b"8686")), 0)
    same("83: 7 comes before 17", store(), sks.user(83, S1 + 9, right, b"864"), 7)
    same("83: locked: 1", store(errors=3), sks.user(83, K, right, b"8642"), 1)
    same("83: a key without PIN: 17", bare, sks.user(83, K, right, b"8642"), 17)
    same("83: UserModifiable 0: 17", put(store(), 3, sks.policy_record(1, 2, b"pol", puk=S1 + 1, modifiable=0)), sks.user(83, K, right, b"8642"), 17)
    same("83: an unfit new PIN costs no try: 17", store(), sks.user(83, K, wrong, b"864"), 17)
    same("83: no new PIN: 17", store(), sks.user(83, K, right, b""), 17)
    case("83: the same PIN again", store(errors=1), sks.user(83, K, right, right), store(), 0)
    shared = sks.policy_record(1, 2, b"pol", puk=S1 + 1, grouping=1)
    family = [counter(4), session(state=2, following=5, counter=9), PUK1, shared, key1(errors=1), key1(errors=2, obj=4, name=b"two"),
              session(2, following=3, counter=2), sks.pending_record(2, 1, 50, K), sks.pending_record(2, 2, 51, S1 + 4), sks.FREE]
    case("83: a shared PIN changes for all, counts stay the siblings' own, pendings on all become stale", family, sks.user(83, K, right, b"8642"),
         [family[0], family[1], PUK1, shared, key1(pin=b"8642"), key1(pin=b"8642", errors=2, obj=4, name=b"two"), family[6],
          sks.pending_record(2, 1, 50, 0, stale=1), sks.pending_record(2, 2, 51, 0, stale=1)], 0)


def unsound():
    """One case for each clause of soundness: 19, and the store stays."""
    use = sks.user(100, K, b"1245")
    sound = [counter(4)] + issued() + [session(2, following=2, counter=1), sks.pending_record(2, 1, 51, K), sks.FREE]
    case("a sound store", sound, use, sound, 0)
    full = b"\xff" * 32
    edges = [counter(65536),
             sks.session_record(65535, 2, 1000, b"!", b"~", bytes(32), 65535, 65535, privacy=1, managed=1, time=0xFFFFFFFF, life=0xFFFFFFFF),
             sks.puk_record(65535, 1, b"i" * 32, b"\xff" * 16, form=3, retry=255, errors=255),
             sks.policy_record(65535, 998, b"j" * 32, puk=sks.handle(65535, 1), form=3, retry=255, grouping=1, patterns=7, low=16, high=16),
             sks.key_record(65535, 999, b"k" * 32, b"\xff" * 96, policy=sks.handle(65535, 998), pin=b"\xff" * 16, path=1, errors=255, deletion=3, digest=full, caching=1, export=3, usage=255),
             sks.session_record(1, 1, 1000, b"x" * 32, b"y" * 32, full, 1, 1), sks.pending_record(1, 998, 51, sks.handle(65535, 999)), sks.pending_record(1, 999, 50, 0, stale=1)]
    same("a sound store with every field at its edge", edges, sks.user(100, sks.handle(65535, 999), b""), 1)

    def poke(i, place, *values):
        r = bytearray(sound[i])
        r[place:place + len(values)] = bytes(values)
        return put(sound, i, bytes(r))

    for what, store in (
        ("a PUK's errors above its limit", poke(2, 3, 4)), ("a key's errors above its policy's limit", poke(4, 2, 4)),
        ("a session's state 3", poke(1, 1, 3)), ("a session's state 0", poke(1, 1, 0)), ("next object number 0", poke(5, 2, 0, 0)), ("next object number 1,001", poke(5, 2, 3, 233)),
        ("an object at the next number", poke(5, 2, 0, 1)), ("a session's handle that is no multiple", poke(5, 7, 1)), ("a session above the counter", poke(0, 7, 2)),
        ("an object of a session that is not there", poke(2, 9, 7)), ("a key's policy that is not there", poke(4, 15, 9)), ("a policy's PUK that is not there", poke(3, 15, 9)),
        ("two objects with one ID", poke(3, 17, *b"puk")), ("two sessions with one ClientSessionID", poke(5, 50, *b"C1")), ("a PIN without policy", poke(4, 12, 0, 0, 0, 0)),
        ("protection 2 without PUK", poke(3, 12, 0, 0, 0, 0)), ("a MAC counter above its limit", poke(5, 114, 0, 21)), ("a limit of 0", poke(5, 114, 0, 0, 0, 0)), ("a closed session with a SessionKey", poke(1, 82, 1)),
        ("a closed session's key without path", poke(4, 1, 0)), ("a digest without path", poke(4, 1, 0, 0)), ("KeyManagementKey flag 2", poke(1, 119, 2)), ("a target without KeyManagementKey", poke(1, 119, 0)),
        ("an unstale pending without target", poke(6, 12, 0, 0, 0, 0)), ("a stale pending with a target", poke(6, 2, 1)), ("a pending's target that is not there", poke(6, 15, 9)), ("an operation 52", poke(6, 1, 52)),
        ("PrivacyEnabled 2", poke(1, 118, 2)), ("format 4", poke(2, 1, 4)), ("grouping 2", poke(3, 3, 2)), ("patterns 8", poke(3, 51, 8)), ("min 0", poke(3, 52, 0)), ("max 17", poke(3, 53, 17)), ("min above max", poke(3, 52, 9)),
        ("an ID of no bytes", poke(3, 16, 0)), ("an ID of 33 bytes", poke(3, 16, 33)), ("an ID with 0x20", poke(3, 17, 32)), ("a byte behind an ID", poke(3, 40, 65)), ("a PIN of 17 bytes", poke(4, 49, 17)), ("a byte behind a PIN", poke(4, 60, 1)),
        ("no public key", poke(4, 82, 0)), ("a public key of 97 bytes", poke(4, 82, 97)), ("ExportProtection 4", poke(4, 212, 4)), ("DeleteProtection 4", poke(4, 3, 4)), ("EnablePINCaching 2", poke(4, 211, 2)), ("a byte at the end of a key", poke(4, 255, 1)),
        ("a session of number 0", [counter(4), session(0), sks.FREE]), ("a session's bytes 8-11 unlike its handle", poke(5, 11, 1)), ("a session's parent", poke(5, 15, 1)),
        ("no ServerSessionID", poke(5, 16, 0)), ("ServerSessionID of 33 bytes", poke(5, 16, 33)), ("no ClientSessionID", poke(5, 49, 0)), ("ClientSessionID of 33 bytes", poke(5, 49, 33)), ("ClientSessionID with 0x7F", poke(5, 50, 127)),
        ("a byte behind a ClientSessionID", poke(5, 81, 65)), ("a byte behind a session", poke(5, 128, 1)),
        ("a PUK's parent", poke(2, 15, 1)), ("no PUK value", poke(2, 49, 0)), ("a PUK value of 17 bytes", poke(2, 49, 17)), ("a byte behind a PUK value", poke(2, 65, 1)), ("a byte behind a PUK", poke(2, 66, 1)), ("a PUK's errors under limit 0", poke(2, 2, 0, 1)),
        ("PIN retry limit 0", poke(3, 2, 0)), ("a policy's format 4", poke(3, 1, 4)), ("UserDefined 2", poke(3, 49, 2)), ("UserModifiable 2", poke(3, 50, 2)), ("a byte behind a policy", poke(3, 54, 1)),
        ("a PUK of another session", [counter(4), session(following=3), sks.policy_record(1, 2, b"pol", puk=S2 + 1), session(2, following=2), sks.puk_record(2, 1, b"puk", b"1")]),
        ("a policy of another session", [counter(4), session(following=4), key1(path=0, deletion=0, policy=S2 + 1), session(2, following=2), sks.policy_record(2, 1, b"pol")]),
        ("a path flag of 2", poke(4, 1, 2)), ("a policy without PIN", poke(4, 49, 0, 0, 0, 0, 0)), ("a byte between PIN and public key", poke(4, 66, 1)), ("a byte behind a public key", poke(4, 178, 1)),
        ("a stale mark of 2", poke(6, 2, 2)), ("a pending's byte 3", poke(6, 3, 1)), ("a pending with an ID", poke(6, 16, 1, 65)), ("an operation 49", poke(6, 1, 49)),
        ("a counter's byte 1", poke(0, 1, 1)), ("a counter's byte 8", poke(0, 8, 1)), ("an object with another session's number", poke(2, 5, 2)), ("an object of number 0", poke(2, 7, 0)),
        ("errors without PIN", [counter(4), session(state=2, following=4, counter=7), key1(errors=1, deletion=0, pin=b"", policy=0)]), ("protection 1 without PIN", [counter(4), session(state=2, following=4, counter=7), key1(deletion=1, pin=b"", policy=0)]),
        ("a target in an open session", [counter(4), session(following=4), PUK1, POL1, key1(), session(2, following=2, counter=1), sks.pending_record(2, 1, 50, K)]),
        ("a target without PIN for 51", [counter(4), session(state=2, following=4, counter=7), key1(deletion=0, pin=b"", policy=0), session(2, following=2, counter=1), sks.pending_record(2, 1, 51, K)]),
        ("a closed session's PUK without policy", [counter(4), session(state=2, following=4, counter=7), PUK1, key1(deletion=0, pin=b"", policy=0)]),
        ("a digest without path in an open session", [counter(4), session(following=4), sks.key_record(1, 3, b"key", PUBLIC, digest=DIGEST)]),
        ("a closed session without key", [counter(4), session(state=2), sks.FREE]), ("a closed session's policy without key", [counter(4), session(state=2, following=5, counter=7), POL1, PUK1, key1(deletion=0, pin=b"", policy=0)]),
        ("a pending in a closed session", put(sound, 6, sks.pending_record(1, 1, 50, K))), ("two records with one handle", put(sound, 7, sks.puk_record(1, 1, b"other", b"1"))),
        ("two pendings of one session on one key", put(put(sound, 5, session(2, following=3, counter=2)), 7, sks.pending_record(2, 2, 50, K))),
        ("unlike PINs under a shared policy", [counter(2), session(state=2, following=5, counter=7), PUK1, sks.policy_record(1, 2, b"pol", puk=S1 + 1, grouping=1), key1(), key1(obj=4, name=b"two", pin=b"9999")]),
    ):
        same(f"unsound, {what}: 19", store, use, 19)
    # status 20 cannot be met: where a parent is missing the store is unsound
    for m, value in ((82, b"12345678"), (100, b"1245")):
        same(f"{m}: the policy is missing: 19 comes before 20", put(sound, 3, sks.FREE), sks.user(m, K, value), 19)
        same(f"{m}: the PUK is missing: 19 comes before 20", put(sound, 2, sks.FREE), sks.user(m, K, value), 19)


def slips():
    """The slips that document 01 has met, each where it would show."""
    def locked(deletion=2):
        return [counter(2)] + issued(errors=3, puk_errors=3, deletion=deletion) + [sks.FREE]

    for m, values in ((80, (b"9",)), (82, (b"9",)), (83, (b"9999", b"8642")), (100, (b"9999",))):
        same(f"{m}: locked and wrong: nothing is added", locked(), sks.user(m, K, *values), 1)
    same("80: locked and wrong under protection 1: nothing is added", locked(deletion=1), sks.user(80, K, b"9999"), 1)
    for before, (call, chip) in accepted():
        if call[0] in (3, 8, 9, 10, 12, 50, 51):
            first, rest = call[-32:-31], call[-31:]
            other = bytes([first[0] ^ 1]), bytes(b ^ 1 for b in rest)
            who = int.from_bytes(call[1:5], "big")
            refused(f"{call[0]}: only the first MAC byte agrees: 3", before, (call[:-32] + first + other[1], chip), 3, who)
            refused(f"{call[0]}: only the first MAC byte differs: 3", before, (call[:-32] + other[0] + rest, chip), 3, who)
            refused(f"{call[0]}: only the last MAC byte differs: 3", before, (call[:-1] + other[1][-1:], chip), 3, who)
    tabs = tabs_with_records()
    refused("another issuer's records are not rolled back: 8, wrong MAC", tabs, sks.make_puk(S2, TWO, 2, b"other", b"1"), 3, S2)
    refused("another issuer's records are not rolled back: 3, not fit", tabs, sks.close(S2, ONE, 2, b"C2"), 6, S2)
    refused("another issuer's records are not rolled back: 50, no such key", tabs, sks.post(50, S3, TWO, 2, S1 + 4), 7, S3)
    pol2, key2 = sks.policy_record(1, 4, b"pol2", puk=S1 + 1), key1(obj=5, name=b"key2", policy=S1 + 4)
    closed = session(state=2, following=6, counter=9)
    two = [counter(3), closed, sks.puk_record(1, 1, b"puk", b"12345678", errors=2), POL1, key1(), pol2, key2]
    case("80: a PUK that another policy uses stays", two, sks.user(80, K, b"12345678"), [counter(3), closed, PUK1, sks.FREE, sks.FREE, pol2, key2], 0)
    asked = two + [session(2, following=2, counter=1), sks.pending_record(2, 1, 50, K)]
    case("3: a PUK that another policy uses stays, with its count", asked, sks.close(S2, ONE, 1, b"C2"), [counter(3), closed, two[2], sks.FREE, sks.FREE, pol2, key2], 0, 0, attested(ONE, 2, b"N"))
    last = [counter(3), closed, two[2], sks.FREE, sks.FREE, pol2, key2]
    case("80: the last policy takes the PUK with it", last, sks.user(80, S1 + 5, b"12345678"), [counter(3)], 0)


def run(what, store, *steps):
    """One after the other on one store. A step: what it is, the call (None: format), the status, the store afterwards, then handle and attestation."""
    kind = CALL
    for name, call, status, after, *told in steps:
        if call is None:
            case(f"{what}: {name}", store, (b"", b""), after, status, reply=0, kind=FORMAT)
        else:
            case(f"{what}: {name}", store, call, after, status, *told, kind=kind)
        kind = NEXT
        store = store if after is None else after + [sks.FREE] * (len(store) - len(after))


def runs():
    right, wrong, puk = b"1245", b"9999", b"12345678"

    def user(**more):
        return [counter(2)] + issued(**more) + [sks.FREE]

    run("limit 3, two wrong, then right", user(),
        ("wrong", sks.user(100, K, wrong), 1, user(errors=1)),
        ("wrong again", sks.user(100, K, wrong), 1, user(errors=2)),
        ("right", sks.user(100, K, right), 0, user()),
        ("wrong", sks.user(100, K, wrong), 1, user(errors=1)))
    run("limit 3, three wrong, then right", user(),
        ("wrong", sks.user(100, K, wrong), 1, user(errors=1)),
        ("wrong again", sks.user(100, K, wrong), 1, user(errors=2)),
        ("wrong for the third time", sks.user(100, K, wrong), 1, user(errors=3)),
        ("right: 1", sks.user(100, K, right), 1, None),
        ("unlocked", sks.user(82, K, puk), 0, user()),
        ("right", sks.user(100, K, right), 0, user()))

    # a stale pending, the target posted anew, the close
    base = two_tabs(errors=1)
    asked = put(put(base, 5, session(2, following=2, counter=1)), 7, sks.pending_record(2, 1, 50, K))
    both = put(put(asked, 6, session(3, key=TWO, following=2, counter=1)), 8, sks.pending_record(3, 1, 51, K))
    lost = [counter(4)] + issued() + [session(2, following=2, counter=1), sks.FREE, sks.pending_record(2, 1, 50, 0, stale=1)]
    anew = [counter(4)] + issued() + [session(2, following=3, counter=2), sks.pending_record(2, 2, 50, K), sks.pending_record(2, 1, 50, 0, stale=1)]
    run("stale, then posted anew, then closed", base,
        ("session 2 asks for the removal", sks.post(50, S2, ONE, 0, K), 0, asked),
        ("session 3 asks for the unlock", sks.post(51, S3, TWO, 0, K), 0, both),
        ("session 3 closes: the removal is stale", sks.close(S3, TWO, 1, b"C3"), 0, lost, 0, attested(TWO, 2, b"N")),
        ("posted anew: the first stays stale", sks.post(50, S2, ONE, 1, K), 0, anew),
        ("closed: 6, the key stays", sks.close(S2, ONE, 2, b"C2"), 6, [counter(4)] + issued()))

    # a PIN shared by two keys
    policy = sks.policy_record(1, 2, b"pol", puk=S1 + 1, grouping=1)

    def family(pin, *errors):
        return [counter(2), session(state=2, following=5, counter=9), PUK1, policy, key1(pin=pin, errors=errors[0]), key1(obj=4, name=b"two", pin=pin, errors=errors[1]), sks.FREE]

    run("a shared PIN changed", family(right, 1, 2),
        ("by one key, for both", sks.user(83, K, right, b"8642"), 0, family(b"8642", 0, 2)),
        ("the sibling by the new PIN", sks.user(100, K + 1, b"8642"), 0, family(b"8642", 0, 0)),
        ("the sibling by the old PIN", sks.user(100, K + 1, right), 1, family(b"8642", 0, 1)),
        ("back, by the sibling", sks.user(83, K + 1, b"8642", right), 0, family(right, 0, 0)))

    # two policies under one PUK
    pol2, key2 = sks.policy_record(1, 4, b"pol2", puk=S1 + 1), key1(obj=5, name=b"key2", policy=S1 + 4)
    closed = session(state=2, following=6, counter=9)
    first = [counter(2), closed, PUK1, POL1, key1(), pol2, key2]
    run("two policies under one PUK", first,
        ("a wrong PUK at one key", sks.user(82, K, wrong), 1, put(first, 2, sks.puk_record(1, 1, b"puk", puk, errors=1))),
        ("counts at the other", sks.user(82, K + 2, wrong), 1, put(first, 2, sks.puk_record(1, 1, b"puk", puk, errors=2))),
        ("one key removed: the PUK stays", sks.user(80, K, puk), 0, [counter(2), closed, PUK1, sks.FREE, sks.FREE, pol2, key2]),
        ("the other removed: nothing stays", sks.user(80, K + 2, puk), 0, [counter(2)]))

    # from the first format to the last removal
    def with_third(*rest):
        return [counter(4), *rest, session(3, key=TWO, server=b"S2", client=b"C2")]

    run("a life", [b"\xff" * 256] * 6,
        ("format", None, 0, [counter(1)]),
        ("a session", sks.create(b"C1", ONE), 0, [counter(2), session()], S1),
        ("a PUK", sks.make_puk(S1, ONE, 0, b"puk", puk), 0, [counter(2), session(following=2, counter=1), PUK1], S1 + 1),
        ("a PIN policy", sks.make_policy(S1, ONE, 1, b"pol", S1 + 1, b"puk"), 0, [counter(2), session(following=3, counter=2), PUK1, POL1], S1 + 2),
        ("a key", sks.make_key(S1, ONE, 2, b"key", PUBLIC, S1 + 2, b"pol", right, deletion=2), 0, [counter(2), session(following=4, counter=4), PUK1, POL1, key1(path=0)], K, attested(ONE, 3, b"key", PUBLIC)),
        ("used before the close: 7", sks.user(100, K, right), 7, None),
        ("its path", sks.set_path(S1, ONE, 4, K, b"key", PUBLIC, [CERT]), 0, [counter(2), session(following=4, counter=5), PUK1, POL1, key1()]),
        ("closed", sks.close(S1, ONE, 5, b"C1"), 0, [counter(2)] + issued(), 0, attested(ONE, 6, b"N")),
        ("closed again: 5", sks.close(S1, ONE, 7, b"C1"), 5, None),
        ("used", sks.user(100, K, right), 0, None),
        ("a session in the last place", sks.create(b"C2", TWO, b"S2"), 0, [counter(3)] + issued() + [session(2, key=TWO)], S2),
        ("one session more: 2", sks.create(b"C3", TWO), 2, None),
        ("aborted", sks.abort(S2), 0, [counter(3)] + issued()),
        ("its number is not given twice", sks.create(b"C2", TWO, b"S2"), 0, with_third(*issued()), S3),
        ("the key removed", sks.user(80, K, puk), 0, with_third(*[sks.FREE] * 4)),
        ("closed without key", sks.close(S3, TWO, 0, b"C2"), 0, [counter(4)], 0, attested(TWO, 1, b"N")))


def records(store, unlike):
    """The records of a store that are not those of another, each with its place and without the zeros at its end."""
    found = [sks.be(i, 2) + sks.string(r.rstrip(b"\0")) for i, r in enumerate(store) if r != unlike[i]]
    return sks.be(len(found), 2) + b"".join(found)


def encode():
    out = sks.be(len(GROUPS), 2)
    for group, cases in GROUPS.items():
        out += sks.string(group.encode()) + sks.be(len(cases), 2)
        for kind, name, before, (call, chip), status, buffer, after in cases:
            free = [bytes(len(r)) for r in before]
            out += bytes([kind]) + sks.string(name.encode()) + sks.be(sum(map(len, before)), 4) + records(free if kind == NEXT else before, free)
            out += sks.string(call) + sks.string(chip) + bytes([status]) + sks.string(buffer) + records(after, before)
    return out


def printed():
    """A row of the table for each group, and the last line."""
    lines = ["".join(f"{n:4}" for n in STATUSES)]
    for group, cases in GROUPS.items():
        met = [sum(c[4] == n for c in cases) for n in STATUSES]
        lines.append("".join(f"{n or '.':>4}" for n in met) + "  " + group)
    n = sum(len(cases) for cases in GROUPS.values())
    return "\n".join(lines + [f"{n} cases, {n} as expected", ""])


def build():
    global GROUP
    for GROUP, part in (("format", formats), ("reply, store, call", entry), (None, every_method), (None, methods_2), (None, methods_3_5), (None, methods_8_9), (None, methods_10_12), (None, methods_50_51), (None, users),
                        ("soundness", unsound), ("slips", slips), ("runs", runs)):
        part()


if __name__ == "__main__":
    build()
    crate = os.path.join(os.path.dirname(HERE), "crates", "lines")
    os.makedirs(os.path.join(crate, "data"), exist_ok=True)
    with open(os.path.join(crate, "data", "cases"), "wb") as f:
        f.write(encode())
    with open(os.path.join(crate, "stdout"), "w") as f:
        f.write(printed())
