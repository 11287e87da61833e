#!/usr/bin/env python3
"""What the program `vectors` should print: `scripts/vectors.py > crates/vectors/stdout`.

The digests are those that FIPS 180-4's examples and RFC 4231 give, cross-checked here against Python's hashlib and hmac. The
messages of 55 to 120 times "a" are in no standard: their digests are hashlib's.
"""

import hashlib
import hmac

T448 = b"abcdbcdecdefdefgefghfghighijhijkijkljklmklmnlmnomnopnopq"
T896 = b"abcdefghbcdefghicdefghijdefghijkefghijklfghijklmghijklmnhijklmnoijklmnopjklmnopqklmnopqrlmnopqrsmnopqrstnopqrstu"
sha = [
 ('no bytes', b"", "e3b0c44298fc1c149afbf4c8996fb92427ae41e4649b934ca495991b7852b855"),
 ('"abc"', b"abc", "ba7816bf8f01cfea414140de5dae2223b00361a396177a9cb410ff61f20015ad"),
 ("NIST's 448-bit message", T448, "248d6a61d20638b8e5c026930c3e6039a33ce45964ff2167f6ecedd419db06c1"),
 ("NIST's 896-bit message", T896, "cf5b16a778af8380036ce59e7b0492370b249b11e8f07a51afac45037afee9d1"),
]
for n in (55, 56, 63, 64, 65, 119, 120):
    sha.append((f'{n} times "a"', b"a"*n, hashlib.sha256(b"a"*n).hexdigest()))
sha.append(('one million times "a"', b"a"*1000000, "cdc76e5c9914fb9281a1c7e284d73e67f1809a48a497200e046d39ccc7112cd0"))
L = b"Test Using Larger Than Block-Size Key - Hash Key First"
M = b"This is a test using a larger than block-size key and a larger than block-size data. The key needs to be hashed before being used by the HMAC algorithm."
mac = [
 ("case 1", b"\x0b"*20, b"Hi There", "b0344c61d8db38535ca8afceaf0bf12b881dc200c9833da726e9376c2e32cff7"),
 ("case 2", b"Jefe", b"what do ya want for nothing?", "5bdcc146bf60754e6a042426089575c75a003f089d2739839dec58b964ec3843"),
 ("case 3", b"\xaa"*20, b"\xdd"*50, "773ea91e36800e46854db8ebd09181a72959098b3ef8c122d9635514ced565fe"),
 ("case 4", bytes(range(1, 26)), b"\xcd"*50, "82558a389a443c0ea4cc819899f2083a85f0faa3e578f8077a2e3ff46729665b"),
 ("case 5, its first 128 bits", b"\x0c"*20, b"Test With Truncation", "a3b6167473100ee06e0c796c2955552b"),
 ("case 6", b"\xaa"*131, L, "60e431591ee0b67f0d8a26aacbf5b77f8e0bc6213728c5140546040f0ee37f54"),
 ("case 7", b"\xaa"*131, M, "9b09ffa71b942fcb27635fbcd5b0e944bfdc63644f0713938a7f51535c3a35e2"),
]
assert len(T448)*8 == 448 and len(T896)*8 == 896
for name, m, e in sha:
    assert hashlib.sha256(m).hexdigest() == e, name
for name, k, t, e in mac:
    assert hmac.new(k, t, hashlib.sha256).hexdigest()[:len(e)] == e, name
if __name__ == "__main__":
    for name, m, e in sha: print(f"SHA-256 of {name}: ok, {e}")
    for name, k, t, e in mac: print(f"HMAC-SHA-256, RFC 4231 {name}: ok, {e}")
    n = len(sha) + len(mac)
    print(f"{n} vectors, {n} ok")
