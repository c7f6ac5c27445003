"""Holds a console to Debian's libmcrypt (package libmcrypt4) on random calls over wide blocks: python3 wide_peer.py SEED COUNT CONSOLE..

CONSOLE.. is a program and its words that answers the console's lines. Every block size, key size, mode and way is among the calls."""

import ctypes
import random
import subprocess
import sys
from collections import Counter
from itertools import product

from lines import filler, h, laid_over

PEER = ctypes.CDLL("libmcrypt.so.4")
PEER.mcrypt_module_open.restype = ctypes.c_void_p
KINDS = list(product((24, 32), (16, 24, 32), ("ecb", "cbc"), ("encrypt", "decrypt")))


def peer(width, mode, way, key, iv, text):
    """What libmcrypt makes of whole blocks."""
    handle = ctypes.c_void_p(PEER.mcrypt_module_open(b"rijndael-%d" % (8 * width), None, mode.encode(), None))
    run = PEER.mcrypt_generic if way == "encrypt" else PEER.mdecrypt_generic
    buffer = ctypes.create_string_buffer(text, len(text))
    if PEER.mcrypt_generic_init(handle, key, len(key), iv or None) or run(handle, buffer, len(text)):
        sys.exit("wide_peer: libmcrypt refuses a call")
    PEER.mcrypt_generic_end(handle)
    return buffer.raw


def call(rng, kind):
    """A console line and its answer."""
    width, size, mode, way = kind
    key, text = rng.randbytes(size), rng.randbytes(width * rng.randint(1, 8))
    iv, out = rng.randbytes(width if mode == "cbc" else 0), filler(len(text) + rng.randint(0, 9))
    made = peer(width, mode, way, key, iv, text)
    handed = h((made if way == "encrypt" else text)[-width:]) + " " if mode == "cbc" else ""
    return f"wide{width}-{mode}-{way} {h(key)} {h(iv)} {h(text)} {h(out)}", f"0 {handed}{h(laid_over(made, out))}"


def main(seed, count, console):
    """Compare, and say how many calls of each kind there were."""
    rng = random.Random(seed)
    kinds = [rng.choice(KINDS) for _ in range(count)]
    calls = [call(rng, kind) for kind in kinds]
    done = subprocess.run(console, input="".join(line + "\n" for line, _ in calls), capture_output=True, text=True, check=True)
    given = done.stdout.splitlines()
    wrong = [line for (line, want), answer in zip(calls, given) if answer != want]
    if wrong or len(given) != count:
        sys.exit("wide_peer: %d of %d answers differ, the first of %s" % (len(wrong), len(given), wrong[:1]))
    print("wide_peer: %d calls agree, at least %d of each of %d kinds" % (count, min(Counter(kinds)[kind] for kind in KINDS), len(KINDS)))


if __name__ == "__main__":
    main(int(sys.argv[1]), int(sys.argv[2]), sys.argv[3:])
