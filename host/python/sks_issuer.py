"""The issuer's half for servers in Python: orders as dataclasses, written as calls with their MACs by the proved library.

    session = Session(session=65536, session_key=key, counter=0)
    call = PukOrder(id=b"PUK", encrypted_value=sealed, retry_limit=3).build(session)
    # The call is sent. If the store answers with status 0, and for no other status:
    session.counter += PukOrder.USES

An order has the fields of its call, and what the store will find behind the handles in it: a ClientSessionID, IDs, who sets a PIN, a
public key. One in range, sent to a store that has the session at that key and counter and finds those things, is never answered with
status 3. One out of range raises OutOfRange, and nothing is sent. Which values the store refuses by another number stands in
include/sks_issuer.h, beside the fields. The two attestations are checked before the counter moves on, at the call's own counter.

The library is the shared object that SKS_ISSUER names, or target/shared/libissuer.so, which `make issuer` makes. No state is kept.
"""

from __future__ import annotations

import ctypes
import dataclasses
import enum
import functools
import os
import pathlib
from typing import Any, ClassVar, Sequence

LONGEST_CALL = 16384
KEY_ENTRY_ALGORITHM = b"http://xmlns.webpki.org/sks/algorithm#key.1"
P_256 = b"urn:oid:1.2.840.10045.3.1.7"


class OutOfRange(ValueError):
    """A field is out of its range, the counter has no room for the uses, or the call would have more than 16,384 bytes: status 16."""

    status = 16


class PinKind(enum.IntEnum):
    """Who sets the PIN of a key: nobody, where it has no PIN policy; else the user or the issuer, as UserDefined of the policy says."""

    NONE = 0
    USER = 1
    ISSUER = 2


@dataclasses.dataclass
class Session:
    """What an issuer knows of its session: its handle, the SessionKey of 32 bytes, and the MAC counter before the call."""

    session: int
    session_key: bytes
    counter: int = 0

    def check_key(self, id: bytes, public_key: bytes, attestation: bytes) -> bool:
        """Whether this is the attestation that answers a call of method 10 built at this counter, for the public key that the chip made."""
        return _called("sks_check_key", self.session_key, self.counter, id, public_key, attestation)

    def check_close(self, nonce: bytes, attestation: bytes) -> bool:
        """Whether this is the attestation that answers a close built at this counter with that nonce."""
        return _called("sks_check_close", self.session_key, self.counter, nonce, attestation)


class Order:
    """What all orders have in common. USES says by how much the counter moves once the call is answered with status 0."""

    USES: ClassVar[int]
    _FUNCTION: ClassVar[str]

    def build(self, session: Session) -> bytes:
        """The call. Raises OutOfRange."""
        out, written = ctypes.create_string_buffer(LONGEST_CALL), ctypes.c_size_t()
        status = _called(self._FUNCTION, session.session, session.session_key, session.counter, *self._fields(), out, ctypes.byref(written))
        if status == OutOfRange.status:
            raise OutOfRange(f"{type(self).__name__} at counter {session.counter}")
        # No call is longer than the buffer.
        assert status == 0, status
        return out.raw[:written.value]

    def _fields(self) -> list[int | bytes]:
        """The fields in the order of the C function's parameters, which is that of the dataclass."""
        return [getattr(self, field.name) for field in dataclasses.fields(self)]


@dataclasses.dataclass
class CloseOrder(Order):
    """Method 3: makes everything in the session count. The ClientSessionID stands in the MAC alone; the nonce has 1 to 64 bytes."""

    USES, _FUNCTION = 2, "sks_build_close"
    client_session_id: bytes
    nonce: bytes


@dataclasses.dataclass
class PukOrder(Order):
    """Method 8: makes a PUK. Its value comes sealed for the chip, in 1 to 64 bytes."""

    USES, _FUNCTION = 1, "sks_build_puk"
    id: bytes
    encrypted_value: bytes
    format: int = 0
    retry_limit: int = 0


@dataclasses.dataclass
class PolicyOrder(Order):
    """Method 9: makes a PIN policy, under the PUK of that handle and ID, or with handle 0 under none."""

    USES, _FUNCTION = 1, "sks_build_policy"
    id: bytes
    puk: int = 0
    puk_id: bytes = b""
    user_defined: int = 0
    user_modifiable: int = 0
    format: int = 0
    retry_limit: int = 0
    grouping: int = 0
    patterns: int = 0
    min: int = 0
    max: int = 0
    input_method: int = 0


@dataclasses.dataclass
class KeyOrder(Order):
    """Method 10: makes a key, under the PIN policy of that handle and ID, or with handle 0 and PinKind.NONE without a PIN."""

    USES, _FUNCTION = 2, "sks_build_key"
    id: bytes
    algorithm: bytes = KEY_ENTRY_ALGORITHM
    server_seed: bytes = b""
    policy: int = 0
    policy_id: bytes = b""
    pin_kind: int = PinKind.NONE
    pin_value: bytes = b""
    pin_caching: int = 0
    biometric_protection: int = 0
    export_protection: int = 0
    delete_protection: int = 0
    app_usage: int = 0
    friendly_name: bytes = b""
    key_algorithm: bytes = P_256
    key_parameters: bytes = b""
    endorsed_algorithms: int = 0


@dataclasses.dataclass
class PathOrder(Order):
    """Method 12: sets the certificate path of a key: 1 to 255 certificates, none of them empty, the key's own first."""

    USES, _FUNCTION = 1, "sks_build_path"
    key: int
    key_id: bytes
    public_key: bytes
    certificates: Sequence[bytes]

    def _fields(self) -> list[int | bytes]:
        if any(len(certificate) > 65535 for certificate in self.certificates):
            raise OutOfRange("a certificate of more than 65,535 bytes")
        joined = b"".join(len(certificate).to_bytes(2, "big") + certificate for certificate in self.certificates)
        return [self.key, self.key_id, self.public_key, len(self.certificates), joined]


@dataclasses.dataclass
class PostOrder(Order):
    """Methods 50, postDeleteKey, and 51, postUnlockKey: queues what the close will do to a key of a closed session."""

    USES, _FUNCTION = 1, "sks_build_post"
    method: int
    key: int
    authorization: bytes


# The parameters of the C functions, letter by letter: a handle, a counter or short, a byte, bytes with their length, and what is written.
_ISSUER, _OUT = "hbs", "ow"
_PARAMETERS = {
    "sks_build_close": _ISSUER + "bb" + _OUT,
    "sks_build_puk": _ISSUER + "bb11" + _OUT,
    "sks_build_policy": _ISSUER + "bhb111111111" + _OUT,
    "sks_build_key": _ISSUER + "bbbhb1b11111bbbs" + _OUT,
    "sks_build_path": _ISSUER + "hbb1b" + _OUT,
    "sks_build_post": _ISSUER + "1hb" + _OUT,
    "sks_check_key": "bsbbb",
    "sks_check_close": "bsbb",
}
_TYPES = {
    "h": [ctypes.c_uint32],
    "s": [ctypes.c_uint16],
    "1": [ctypes.c_uint8],
    "b": [ctypes.c_char_p, ctypes.c_size_t],
    "o": [ctypes.c_char_p, ctypes.c_size_t],
    "w": [ctypes.POINTER(ctypes.c_size_t)],
}
_BITS = {"h": 32, "s": 16, "1": 8}


def shared_library(variable: str, name: str, made_by: str) -> ctypes.CDLL:
    """The shared object that the variable names, or the one of that name in target/shared."""
    usual = pathlib.Path(__file__).resolve().parents[2] / "target" / "shared" / name
    if variable not in os.environ and not usual.exists():
        raise FileNotFoundError(f"there is no {usual}; run `{made_by}` at the top of the repository, or let {variable} name a {name}")
    return ctypes.CDLL(os.environ.get(variable, str(usual)))


@functools.cache
def _library() -> ctypes.CDLL:
    library = shared_library("SKS_ISSUER", "libissuer.so", "make issuer")
    for name, parameters in _PARAMETERS.items():
        function = getattr(library, name)
        function.argtypes = [type_ for letter in parameters for type_ in _TYPES[letter]]
        function.restype = ctypes.c_bool if name.startswith("sks_check") else ctypes.c_uint8
    return library


def _called(name: str, *arguments: Any) -> int:
    """What the C function returns. A number that does not go into its parameter is out of range: C would cut it to size."""
    passed: list[Any] = []
    for letter, argument in zip(_PARAMETERS[name], arguments, strict=True):
        if letter in _BITS:
            if not 0 <= argument < 1 << _BITS[letter]:
                raise OutOfRange(f"{argument} where a number of {_BITS[letter]} bits belongs")
            passed.append(argument)
        elif letter == "w":
            passed.append(argument)
        else:
            passed += [argument, len(argument)]
    return getattr(_library(), name)(*passed)
