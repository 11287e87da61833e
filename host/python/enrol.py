#!/usr/bin/env python3
"""An issuer's server in small: puts a key with PIN and PUK on a token, call by call, and checks both attestations. A line a step; it ends
with 1 where a call is refused or an attestation is wrong.

The token is the proved store in this process: the shared object that SKS_TOKEN names, or target/shared/libtoken.so. Its chip is played
here: the session key, the public key and the values that it opens are made up, and stand beside each call as its chip bytes.
"""

from __future__ import annotations

import ctypes
import os
import sys
from typing import Callable

from sks_issuer import CloseOrder, KeyOrder, Order, PathOrder, PinKind, PolicyOrder, PukOrder, Session, shared_library

SESSION_ALGORITHM = b"http://xmlns.webpki.org/sks/algorithm#session.1"


class Token:
    """A store of 16 records, and the call that goes through it."""

    def __init__(self) -> None:
        self.library = shared_library("SKS_TOKEN", "libtoken.so", "make lib issuer")
        self.store = ctypes.create_string_buffer(16 * 256)
        lent = [ctypes.c_char_p, ctypes.c_size_t]
        self.library.sks_format.argtypes, self.library.sks_call.argtypes = lent, lent * 4
        self.library.sks_format(self.store, len(self.store))

    def ask(self, call: bytes, chip: bytes) -> tuple[int, int, bytes]:
        """Status, handle and attestation."""
        reply = ctypes.create_string_buffer(37)
        self.library.sks_call(self.store, len(self.store), call, len(call), chip, len(chip), reply, len(reply))
        return reply.raw[0], int.from_bytes(reply.raw[1:5], "big"), reply.raw[5:]


def string(text: bytes) -> bytes:
    return len(text).to_bytes(2, "big") + text


def create_session(limit: int) -> bytes:
    """Method 2, the one issuer's call without a MAC: with a KeyManagementKey, and a SessionKeyLimit."""
    texts = string(b"server-1"), string(b"ephemeral key"), string(b"https://badges.example"), string(b"key management key")
    return b"\2" + string(SESSION_ALGORITHM) + b"\0" + b"".join(texts) + bytes(8) + limit.to_bytes(2, "big")


def tell(step: str, reply: tuple[int, int, bytes], told: str = "") -> None:
    print(f"{step}: status {reply[0]}, handle {reply[1]}{told}")
    if reply[0] != 0:
        sys.exit(1)


def main() -> None:
    token = Token()
    session_key, client_session_id, public_key = os.urandom(32), b"client-1", b"\4" + os.urandom(90)
    reply = token.ask(create_session(50), session_key + string(client_session_id))
    tell("create session", reply)
    session = Session(reply[1], session_key)

    def send(step: str, order: Order, chip: bytes = b"", attests: Callable[[bytes], bool] | None = None) -> int:
        """Sends an order, checks its attestation if it has one, and moves the counter on."""
        reply = token.ask(order.build(session), chip)
        if attests is None:
            tell(step, reply)
        else:
            right = attests(reply[2])
            tell(step, reply, f", attestation {'right' if right else 'WRONG'}")
            if not right:
                sys.exit(1)
        session.counter += order.USES
        return reply[1]

    # How a value is sealed is between the issuer and the chip, which opens it: here it is no secret.
    puk = PukOrder(id=b"PUK", encrypted_value=b"84620375, sealed", retry_limit=3)
    puk_handle = send("PUK", puk, chip=b"84620375")
    policy = PolicyOrder(id=b"PIN", puk=puk_handle, puk_id=puk.id, user_defined=1, user_modifiable=1, retry_limit=3, min=4, max=8)
    policy_handle = send("PIN policy", policy)
    # The user types the PIN at the console, which fills it in; the MAC is made without it.
    key = KeyOrder(id=b"Badge", policy=policy_handle, policy_id=policy.id, pin_kind=PinKind.USER, pin_value=b"2580", friendly_name=b"Badge of Ada")
    key_handle = send("key", key, string(public_key) + string(b""), lambda a: session.check_key(key.id, public_key, a))
    send("certificate path", PathOrder(key_handle, key.id, public_key, [b"the key's own certificate", b"the issuer's"]))
    close = CloseOrder(client_session_id, nonce=os.urandom(32))
    send("close", close, attests=lambda a: session.check_close(close.nonce, a))
    tell("use of the key with its PIN", token.ask(b"\x64" + key_handle.to_bytes(4, "big") + string(b"2580"), b""))


if __name__ == "__main__":
    main()
