"""Tests of sks_issuer.py: that its functions are those of the header, of the crate and of the Rust binding; that its calls are those of
scripts/sks.py, which has Python's own hmac; and the edges that the types of Rust have no word for. The others are in host/differ/tests."""

import ctypes
import dataclasses
import pathlib
import re
import sys
import unittest

import sks_issuer
from sks_issuer import CloseOrder, KeyOrder, OutOfRange, PathOrder, PinKind, PolicyOrder, PostOrder, PukOrder, Session

TOP = pathlib.Path(__file__).resolve().parents[2]
sys.path.insert(0, str(TOP / "scripts"))
import sks  # noqa: E402

ORDERS = {order._FUNCTION: order for order in (CloseOrder, PukOrder, PolicyOrder, KeyOrder, PathOrder, PostOrder)}
KEY = bytes(range(32))
PUBLIC = b"\4" * 91
FILL = b"\xee"


def session(**changes):
    return dataclasses.replace(Session(65536, KEY, 5), **changes)


def close(**changes):
    return dataclasses.replace(CloseOrder(b"client", b"nonce"), **changes)


def puk(**changes):
    return dataclasses.replace(PukOrder(b"PUK", b"sealed", retry_limit=3), **changes)


def policy(**changes):
    under = PolicyOrder(b"PIN", 65537, b"PUK", 1, 0, 2, 3, 1, 4, 5, 6, 0)
    return dataclasses.replace(under, **changes)


def key(**changes):
    under = KeyOrder(b"Key", server_seed=b"seed", policy=65538, policy_id=b"PIN", pin_kind=PinKind.ISSUER, pin_value=b"sealed", pin_caching=1,
                     export_protection=1, delete_protection=2, app_usage=3, friendly_name=b"Badge")
    return dataclasses.replace(under, **changes)


def path(**changes):
    return dataclasses.replace(PathOrder(65539, b"Key", PUBLIC, [b"own", b"the root's"]), **changes)


def post(**changes):
    return dataclasses.replace(PostOrder(50, 65539, b"signature"), **changes)


SAMPLES = [close(), puk(), policy(), key(), path(), post(), post(method=51)]


def arguments(at, order):
    return [at.session, at.session_key, at.counter, *order._fields()]


class Same(unittest.TestCase):
    """One list of parameters, in four places."""

    def declared(self, text, pattern, letters):
        """The parameters of the eight functions as letters, and their names, in the text's order."""
        found = {}
        for name, parameters in re.findall(pattern, text):
            spelt = " ".join(parameters.split()).strip(" ,")
            for written, letter in letters:
                spelt = re.sub(written, letter, spelt)
            found[name] = [tuple(parameter.split()) for parameter in spelt.split(",")]
        self.assertEqual(list(found), list(sks_issuer._PARAMETERS))
        for name, parameters in found.items():
            self.assertEqual("".join(letter for letter, _ in parameters), sks_issuer._PARAMETERS[name], name)
        return {name: [word for _, word in parameters] for name, parameters in found.items()}

    def test_parameters(self):
        header = self.declared((TOP / "include/sks_issuer.h").read_text(), r"(?m)^(?:uint8_t|bool) (sks_(?:build|check)_\w+)\(([^)]*)\);",
                               [(r"const uint8_t \*(\w+), size_t \1_len", r"b \1"), (r"uint8_t \*(\w+), size_t \1_len", r"o \1"),
                                (r"size_t \*", "w "), ("uint32_t", "h"), ("uint16_t", "s"), ("uint8_t", "1")])
        numbers = [(r"(\w+): u32", r"h \1"), (r"(\w+): u16", r"s \1"), (r"(\w+): u8", r"1 \1")]
        rust = self.declared((TOP / "host/issuer/src/library.rs").read_text(), r"pub fn (sks_\w+)\(([^)]*)\)",
                             [(r"(\w+): \*const u8, \1_len: usize", r"b \1"), (r"(\w+): \*mut u8, \1_len: usize", r"o \1"),
                              (r"(\w+): \*mut usize", r"w \1"), *numbers])
        self.declared((TOP / "crates/issuer_c/src/lib.rt").read_text(), r"pub extern \"C\" fn (sks_\w+)(?:<'a>)?\(([^)]*)\)",
                      [(r"(\w+): &'a \[u8\]", r"b \1"), (r"(\w+): &mut \[u8\]", r"o \1"), (r"(\w+): &mut usize", r"w \1"), *numbers])
        self.assertEqual(header, rust)
        for name, order in ORDERS.items():
            fields = [field.name for field in dataclasses.fields(order)]
            if order is PathOrder:
                fields.insert(3, "count")
            self.assertEqual(header[name], ["session", "session_key", "counter", *fields, "out", "written"])

    def test_numbers(self):
        header = (TOP / "include/sks_issuer.h").read_text()
        named = {name: int(value) for name, value in re.findall(r"(SKS_\w+)(?: =)? (\d+)", header)}
        self.assertEqual(named["SKS_OUT_OF_RANGE"], OutOfRange.status)
        self.assertEqual(named["SKS_LONGEST_CALL"], sks_issuer.LONGEST_CALL)
        self.assertEqual([named[f"SKS_{kind.name.replace('NONE', 'NO')}_PIN"] for kind in PinKind], list(PinKind))
        for name, order in ORDERS.items():
            self.assertEqual(named["SKS_USES_" + name.removeprefix("sks_build_").upper()], order.USES)
        for text in (sks_issuer.KEY_ENTRY_ALGORITHM, sks_issuer.P_256):
            self.assertIn(f'"{text.decode()}"', header)


class Calls(unittest.TestCase):
    def test_calls_are_those_of_hmac(self):
        at = session()
        first = at.session, at.session_key, at.counter
        made = [sks.close(*first, b"client", b"nonce"),
                sks.make_puk(*first, b"PUK", b"", b"sealed", retry=3),
                sks.make_policy(*first, b"PIN", 65537, b"PUK", 1, 0, 2, 3, 1, 4, 5, 6, 0),
                sks.make_key(*first, b"Key", PUBLIC, 65538, b"PIN", b"sealed", b"sealed", caching=1, export=1, deletion=2, usage=3, seed=b"seed",
                             friendly=b"Badge"),
                sks.set_path(*first, 65539, b"Key", PUBLIC, [b"own", b"the root's"]),
                sks.post(50, *first, 65539, b"signature"), sks.post(51, *first, 65539, b"signature")]
        for order, (call, _) in zip(SAMPLES, made, strict=True):
            self.assertEqual(order.build(at), call, order)
        self.assertEqual(key(pin_kind=PinKind.USER).build(at)[:-32], made[3][0][:-32])
        self.assertNotEqual(key(pin_kind=PinKind.USER).build(at), made[3][0])
        self.assertEqual(policy(puk=0).build(at), sks.make_policy(*first, b"PIN", 0, sks.NA, 1, 0, 2, 3, 1, 4, 5, 6, 0)[0])

    def test_the_page_puts_the_users_pin_in(self):
        """docs/CALLS.md tells the place: the MAC that was made without the PIN stays right."""
        order = key(pin_kind=PinKind.USER, pin_value=b"")
        call = order.build(session())
        at = 15 + len(order.id) + len(order.algorithm) + len(order.server_seed)
        with_pin = call[:at] + sks.string(b"2580") + call[at + 2:]
        self.assertEqual(with_pin, dataclasses.replace(order, pin_value=b"2580").build(session()))

    def test_attestations(self):
        at = session()
        of_key, of_close = (sks.mac(KEY, sks.ATTEST, 6, text) for text in (sks.string(b"Key") + sks.string(PUBLIC), sks.string(b"nonce")))
        self.assertIs(at.check_key(b"Key", PUBLIC, of_key), True)
        self.assertIs(at.check_close(b"nonce", of_close), True)
        for other in (session(counter=4), session(counter=6), session(counter=65535), session(session_key=KEY[:31]), session(session_key=KEY + b"\0")):
            self.assertIs(other.check_key(b"Key", PUBLIC, of_key), False)
            self.assertIs(other.check_close(b"nonce", of_close), False)
        for spoilt in (b"", of_key[:31], of_key + b"\0", bytes([of_key[0] ^ 1]) + of_key[1:]):
            self.assertIs(at.check_key(b"Key", PUBLIC, spoilt), False)
            self.assertIs(at.check_close(b"nonce", spoilt), False)


class Edges(unittest.TestCase):
    def raw(self, name, *given, room=600):
        """The C function over a filled buffer: its status, the length it tells, and the buffer."""
        out, written = ctypes.create_string_buffer(FILL * room, room), ctypes.c_size_t(77)
        return sks_issuer._called(name, *given, out, ctypes.byref(written)), written.value, out.raw

    def refused(self, at, order):
        self.assertEqual(self.raw(order._FUNCTION, *arguments(at, order)), (16, 0, FILL * 600), order)
        with self.assertRaises(OutOfRange):
            order.build(at)

    def taken(self, at, order):
        call, given = order.build(at), arguments(at, order)
        short = len(call) - 1
        self.assertEqual(self.raw(order._FUNCTION, *given), (0, len(call), call + FILL * (600 - len(call))), order)
        self.assertEqual(self.raw(order._FUNCTION, *given, room=short), (21, 0, FILL * short), order)

    def test_session_key(self):
        for order in SAMPLES:
            for length in (0, 1, 31, 33, 64):
                self.refused(session(session_key=b"k" * length), order)
            self.taken(session(), order)

    def test_flags(self):
        for value in (0, 1, 2, 3, 128, 255):
            check = self.taken if value <= 1 else self.refused
            check(session(), policy(user_defined=value))
            check(session(), policy(user_modifiable=value))
            check(session(), key(pin_caching=value))

    def test_pin_kind_and_policy(self):
        for kind in (0, 1, 2, 3, 255):
            for handle in (0, 1, 2**32 - 1):
                check = self.taken if (kind == 0 if handle == 0 else kind in (1, 2)) else self.refused
                check(session(), key(pin_kind=kind, policy=handle))
        # An ID that belongs to handle 0 is not looked at.
        for no_id in (b"", b" ", b"x" * 33):
            self.taken(session(), key(pin_kind=0, policy=0, policy_id=no_id))
            self.taken(session(), policy(puk=0, puk_id=no_id))

    def test_method(self):
        for method in (0, 3, 49, 50, 51, 52, 255):
            (self.taken if method in (50, 51) else self.refused)(session(), post(method=method))

    def test_count_and_certificates(self):
        at = session()
        given = [at.session, at.session_key, at.counter, 65539, b"Key", PUBLIC]
        one, two = sks.string(b"own"), sks.string(b"own") + sks.string(b"root")
        for count, joined in ((1, one), (2, two)):
            self.assertEqual(self.raw("sks_build_path", *given, count, joined)[0], 0)
        for count, joined in ((0, b""), (0, one), (1, b""), (1, b"\0"), (1, b"\0\0"), (1, one[:-1]), (1, one + b"\0"), (1, two), (2, one), (2, one + b"\0\0"),
                              (2, one + b"\0"), (3, two), (255, two), (1, b"\xff\xff" + b"c" * 300)):
            self.assertEqual(self.raw("sks_build_path", *given, count, joined), (16, 0, FILL * 600), (count, joined))

    def test_numbers_that_c_would_cut_to_size(self):
        widths = {"h": 32, "s": 16, "1": 8}
        for order in SAMPLES:
            letters = sks_issuer._PARAMETERS[order._FUNCTION]
            for place, letter in enumerate(letters):
                for wrong in (-1, 1 << widths[letter]) if letter in widths else ():
                    given = arguments(session(), order)
                    given[place] = wrong
                    with self.assertRaises(OutOfRange):
                        self.raw(order._FUNCTION, *given)
        with self.assertRaises(OutOfRange):
            session(counter=65536).check_close(b"nonce", bytes(32))
        with self.assertRaises(OutOfRange):
            path(certificates=[b"c" * 65537]).build(session())
        with self.assertRaises(OutOfRange):
            path(certificates=[b"c"] * 257).build(session())

    def test_longest(self):
        self.assertEqual(len(path(certificates=[b"c" * 16340]).build(session())), sks_issuer.LONGEST_CALL)
        with self.assertRaises(OutOfRange):
            path(certificates=[b"c" * 16341]).build(session())


if __name__ == "__main__":
    unittest.main()
