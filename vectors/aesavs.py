"""Response files of the Monte Carlo tests of AESAVS, 6.4.1 and 6.4.2: python3 aesavs.py FOLDER, with the command openssl of version 3.

No package has NIST's own files. The chain here is written from AESAVS over OpenSSL's libcrypto, 100 records for each of the twelve cases.
Two records of NIST's files anchor it: the script stops where it does not come to them.
"""

import ctypes
import ctypes.util
import sys
from pathlib import Path

CRYPTO = ctypes.CDLL(ctypes.util.find_library("crypto") or "libcrypto.so.3")
CRYPTO.EVP_CIPHER_CTX_new.restype = ctypes.c_void_p
CRYPTO.EVP_get_cipherbyname.restype = ctypes.c_void_p
CRYPTO.EVP_CIPHER_CTX_free.argtypes = [ctypes.c_void_p]
CRYPTO.EVP_CipherInit_ex.argtypes = [ctypes.c_void_p, ctypes.c_void_p, ctypes.c_void_p, ctypes.c_char_p, ctypes.c_char_p, ctypes.c_int]
CRYPTO.EVP_CIPHER_CTX_set_padding.argtypes = [ctypes.c_void_p, ctypes.c_int]
CRYPTO.EVP_CipherUpdate.argtypes = [ctypes.c_void_p, ctypes.c_char_p, ctypes.POINTER(ctypes.c_int), ctypes.c_char_p, ctypes.c_int]

# NIST's records: mode, key, IV, text, output.
ANCHORS = (
    ("ECB", "139a35422f1d61de3c91787fe0507afd", "", "b9145a768b7dc489a096b546f43b231f", "d7c3ffac9031238650901e157364c386"),
    ("CBC", "8809e7dd3a959ee5d8dbb13f501f2274", "e5c0bb535d7d54572ad06d170a0e58ae", "1fd4ee65603e6130cfc2a82ab3d56c24", "b127a5b4c4692d87483db0c3b0d11e64"),
)


class Blocks:
    """AES under a key, a block at a time; CBC is chained from call to call."""

    def __init__(self, mode, encrypting, key, iv):
        name = "aes-%d-%s" % (8 * len(key), mode.lower())
        self.context = CRYPTO.EVP_CIPHER_CTX_new()
        cipher = CRYPTO.EVP_get_cipherbyname(name.encode())
        if not CRYPTO.EVP_CipherInit_ex(self.context, cipher, None, key, iv or None, int(encrypting)):
            raise ValueError("OpenSSL does not know " + name)
        CRYPTO.EVP_CIPHER_CTX_set_padding(self.context, 0)

    def __call__(self, text):
        out, n = ctypes.create_string_buffer(32), ctypes.c_int(0)
        if not CRYPTO.EVP_CipherUpdate(self.context, out, ctypes.byref(n), text, 16) or n.value != 16:
            raise ValueError("OpenSSL gave %d bytes" % n.value)
        return out.raw[:16]

    def close(self):
        """Gives the context back."""
        CRYPTO.EVP_CIPHER_CTX_free(self.context)


def record(mode, encrypting, key, iv, text):
    """The inner loop over j, 0 to 999: the outputs 998 and 999."""
    blocks, outputs, current = Blocks(mode, encrypting, key, iv), [], text
    for j in range(1000):
        outputs.append(blocks(current))
        if mode == "ECB":
            current = outputs[j]
        else:
            current = iv if j == 0 else outputs[j - 1]
    blocks.close()
    return outputs[998], outputs[999]


def chain(mode, encrypting, key, iv, text, count):
    """The outer loop over i: (key, IV, text, output) of each record."""
    for _ in range(count):
        before, last = record(mode, encrypting, key, iv, text)
        yield key, iv, text, last
        joined = (before + last)[-len(key):]
        key = bytes(a ^ b for a, b in zip(key, joined))
        if mode == "ECB":
            text = last
        else:
            iv, text = last, before


def filler(size, start):
    """Bytes that look like nothing."""
    value, out = start, bytearray()
    for _ in range(size):
        value = (value * 1103515245 + 12345) % 2**31
        out.append(value >> 16 & 0xFF)
    return bytes(out)


def section(mode, encrypting, size, count):
    """The lines of a section."""
    seed = size + (1000 if mode == "CBC" else 0) + (500 if encrypting else 0)
    iv = filler(16, seed + 2) if mode == "CBC" else b""
    names = ("PLAINTEXT", "CIPHERTEXT") if encrypting else ("CIPHERTEXT", "PLAINTEXT")
    lines = ["[ENCRYPT]" if encrypting else "[DECRYPT]", ""]
    for i, (key, vector, text, output) in enumerate(chain(mode, encrypting, filler(size, seed), iv, filler(16, seed + 1), count)):
        lines += ["COUNT = %d" % i, "KEY = " + key.hex()]
        lines += ["IV = " + vector.hex()] if vector else []
        lines += ["%s = %s" % (names[0], text.hex()), "%s = %s" % (names[1], output.hex()), ""]
    return lines


def main():
    """Writes the six files, each with both sections."""
    for mode, key, iv, text, output in ANCHORS:
        got = record(mode, True, bytes.fromhex(key), bytes.fromhex(iv), bytes.fromhex(text))[1]
        if got.hex() != output:
            raise SystemExit("%s does not come to NIST's record: %s" % (mode, got.hex()))
    for mode in ("ECB", "CBC"):
        for size in (16, 24, 32):
            lines = ["# Monte Carlo test of AESAVS for %s, made by vectors/aesavs.py over OpenSSL" % mode, "# Key Length : %d" % (8 * size), ""]
            lines += section(mode, True, size, 100) + section(mode, False, size, 100)
            Path(sys.argv[1], "%sMCT%d.rsp" % (mode, 8 * size)).write_text("\n".join(lines), encoding="ascii")


if __name__ == "__main__":
    main()
