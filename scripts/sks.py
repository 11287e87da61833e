"""Calls, MACs and records of document 01 as bytes, built with Python's hashlib and hmac alone.

Used by the scripts that write worked examples and test data. It knows how a call or a record is laid out, and nothing of
what the store answers: what is expected of a call is written down by whoever uses this file.
"""

import hashlib
import hmac as hmaclib


def be(n, width):
    return n.to_bytes(width, "big")


def string(v):
    return be(len(v), 2) + v


def handle(session, obj=0):
    return session * 65536 + obj


def mac(key, name, counter, data):
    return hmaclib.new(key + name + be(counter, 2), data, hashlib.sha256).digest()


ATTEST = b"Device Attestation"
NA = b"#N/A"
SESSION_ALGORITHM = b"http://xmlns.webpki.org/sks/algorithm#session.1"
KEY_ALGORITHM = b"http://xmlns.webpki.org/sks/algorithm#key.1"
P256 = b"urn:oid:1.2.840.10045.3.1.7"


# ---- records


def record(fields):
    """A record from {place: bytes}; every byte not named is zero."""
    r = bytearray(256)
    for place, v in fields.items():
        r[place:place + len(v)] = v
    return bytes(r)


def text(v):
    return bytes([len(v)]) + v


FREE = bytes(256)


def counter_record(following):
    return record({0: b"\x06", 4: be(following, 4)})


def session_record(number, state, following, server, client, key, counter, limit, privacy=0, managed=1, time=0, life=0):
    h = be(handle(number), 4)
    return record({0: bytes([1, state]), 2: be(following, 2), 4: h, 8: h, 16: text(server), 49: text(client), 82: key,
                   114: be(counter, 2), 116: be(limit, 2), 118: bytes([privacy, managed]), 120: be(time, 4), 124: be(life, 4)})


def puk_record(number, obj, name, value, form=0, retry=3, errors=0):
    return record({0: bytes([2, form, retry, errors]), 4: be(handle(number, obj), 4), 8: be(handle(number), 4), 16: text(name), 49: text(value)})


def policy_record(number, obj, name, puk=0, form=0, retry=3, grouping=0, defined=1, modifiable=1, patterns=0, low=4, high=8):
    return record({0: bytes([3, form, retry, grouping]), 4: be(handle(number, obj), 4), 8: be(handle(number), 4), 12: be(puk, 4), 16: text(name),
                   49: bytes([defined, modifiable, patterns, low, high])})


def key_record(number, obj, name, public, policy=0, pin=b"", path=0, errors=0, deletion=0, digest=bytes(32), caching=0, export=0, usage=0):
    return record({0: bytes([4, path, errors, deletion]), 4: be(handle(number, obj), 4), 8: be(handle(number), 4), 12: be(policy, 4), 16: text(name),
                   49: text(pin), 82: text(public), 179: digest, 211: bytes([caching, export, usage])})


def pending_record(number, obj, operation, target, stale=0):
    return record({0: bytes([5, operation, stale]), 4: be(handle(number, obj), 4), 8: be(handle(number), 4), 12: be(target, 4)})


# ---- calls: bytes of the call, bytes of the chip


def create(client, key, server=b"S1", algorithm=SESSION_ALGORITHM, privacy=0, ephemeral=b"E", uri=b"https://issuer", management=b"K", time=0, life=0, limit=20):
    call = (b"\x02" + string(algorithm) + bytes([privacy]) + string(server) + string(ephemeral) + string(uri) + string(management)
            + be(time, 4) + be(life, 4) + be(limit, 2))
    return call, key + string(client)


def close(session, key, counter, client, nonce=b"N"):
    return b"\x03" + be(session, 4) + string(nonce) + mac(key, b"closeProvisioningSession", counter, string(client) + string(nonce)), b""


def abort(session):
    return b"\x05" + be(session, 4), b""


def make_puk(session, key, counter, name, value, encrypted=b"PUKPUK", form=0, retry=3):
    data = string(name) + string(encrypted) + bytes([form, retry])
    return b"\x08" + be(session, 4) + data + mac(key, b"createPUKPolicy", counter, data), value


def make_policy(session, key, counter, name, puk=0, puk_name=NA, defined=1, modifiable=1, form=0, retry=3, grouping=0, patterns=0, low=4, high=8, inputs=0):
    rules = bytes([defined, modifiable, form, retry, grouping, patterns, low, high, inputs])
    return (b"\x09" + be(session, 4) + string(name) + be(puk, 4) + rules
            + mac(key, b"createPINPolicy", counter, string(name) + string(puk_name) + rules)), b""


def make_key(session, key, counter, name, public, policy=0, policy_name=NA, pin_value=b"", pin_in_mac=NA, opened=b"", caching=0, biometric=0, export=0,
             deletion=0, usage=0, seed=b"", friendly=b"", algorithm=KEY_ALGORITHM, key_algorithm=P256, parameters=b"", endorsed=0):
    flags = bytes([caching, biometric, export, deletion, usage])
    tail = string(friendly) + string(key_algorithm) + string(parameters)
    data = string(name) + string(algorithm) + string(seed) + string(policy_name) + string(pin_in_mac) + flags + tail
    return (b"\x0a" + be(session, 4) + string(name) + string(algorithm) + string(seed) + be(policy, 4) + string(pin_value) + flags + tail + be(endorsed, 2)
            + mac(key, b"createKeyEntry", counter, data)), string(public) + string(opened)


def set_path(session, key, counter, target, name, public, certificates):
    body = b"".join(string(c) for c in certificates)
    return (b"\x0c" + be(session, 4) + be(target, 4) + bytes([len(certificates)]) + body
            + mac(key, b"setCertificatePath", counter, string(name) + string(public) + body)), b""


def post(method, session, key, counter, target, authorization=b"AUTH", verified=1):
    name = {50: b"postDeleteKey", 51: b"postUnlockKey"}[method]
    return (bytes([method]) + be(session, 4) + be(target, 4) + string(authorization) + mac(key, name, counter, string(authorization))), bytes([verified])


def user(method, target, *values):
    return bytes([method]) + be(target, 4) + b"".join(string(v) for v in values), b""


# ---- replies


def reply(status, handle=0, attestation=bytes(32)):
    return bytes([status]) + be(handle, 4) + attestation
