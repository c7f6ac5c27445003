"""Lines for the key wrap: python3 wrap.py ROOT FOLDER (ROOT: the unpacked packages), with the command openssl of version 3."""

import subprocess
import sys
from collections import Counter
from functools import lru_cache
from itertools import combinations

from lines import Book, counting, filler, h, laid_over
from sources import cavs, rfc3394

WRONG_KEY_SIZES = (0, 15, 17, 23, 25, 31, 33, 64)
KEY_SIZES = (16, 24, 32)
INITIAL = bytes([0xA6] * 8)
RFC = "RFC 3394 section 4, as quoted in golang-github-dvsekhvalnov-jose2go-dev, aes/key_wrap_test.go"
SAME = "RFC 3394 section 4, same file"
NIST = "python3-cryptography-vectors, keywrap/kwtestvectors/"
RULE = "E2"
OPENSSL = "OpenSSL; " + RULE


def key(size, start=0x31):
    """A key that is no other one's."""
    return bytes((start + 13 * i) & 0xFF for i in range(size))


def data(size, start=5):
    """Key data."""
    return bytes((start + 41 * i + i // 7) & 0xFF for i in range(size))


def openssl(way, k, d, initial):
    """OpenSSL's key wrap, or None where it refuses."""
    words = ["openssl", "enc", way, "-id-aes%d-wrap" % (8 * len(k)), "-K", k.hex(), "-iv", initial.hex()]
    done = subprocess.run(words, input=d, capture_output=True, check=False)
    return None if done.returncode else done.stdout


@lru_cache(maxsize=None)
def wrapped(k, d, initial=INITIAL):
    """Key data wrapped by OpenSSL."""
    result = openssl("-e", k, d, initial)
    if result is None or len(result) != len(d) + 8:
        raise ValueError("OpenSSL does not wrap %d bytes" % len(d))
    return result


def opened(k, d):
    """Wrapped data unwrapped by OpenSSL, or None."""
    return openssl("-d", k, d, INITIAL)


def done(book, word, k, d, result, out):
    """A line that is carried out: the result lies over the front of the output."""
    book.add("%s %s %s %s" % (word, h(k), h(d), h(out)), "0 " + h(laid_over(result, out)))


def refused(book, number, word, k, d, out):
    """A line that is refused: the output stays as it was."""
    book.add("%s %s %s %s" % (word, h(k), h(d), h(out)), "%d %s" % (number, h(out)))


def wrong(book, k, d, out=None):
    """Wrapped data of a length in the rule that OpenSSL does not open either: 19."""
    if opened(k, d) is not None:
        raise ValueError("OpenSSL opens it")
    refused(book, 19, "unwrap", k, d, filler(len(d) - 8) if out is None else out)


def ways(plain, cipher):
    """Each call with its data and its result."""
    return (("wrap", plain, cipher), ("unwrap", cipher, plain))


def spoiled(d, place, mask):
    """Data with one byte changed."""
    return d[:place] + bytes([d[place] ^ mask]) + d[place + 1:]


def standard(book, root):
    """RFC 3394's vectors into outputs of the right length, of more and of less."""
    examples = rfc3394(root)
    if len(examples) != 6:
        raise ValueError("there are six vectors")
    book.group("the six vectors, both ways, outputs as long as the result", RFC)
    for _, k, plain, cipher in examples:
        for word, d, result in ways(plain, cipher):
            done(book, word, k, d, result, filler(len(result)))
    book.group("the same, outputs 1, 7, 8 and 33 bytes longer: the bytes past the result stay", SAME + "; " + RULE)
    for _, k, plain, cipher in examples:
        for word, d, result in ways(plain, cipher):
            for more in (1, 7, 8, 33):
                done(book, word, k, d, result, filler(len(result) + more))
    book.group("the same, outputs 1, 7 and 8 bytes shorter, and none: 4", RULE + ", refusal 4")
    for _, k, plain, cipher in examples:
        for word, d, result in ways(plain, cipher):
            for out in (len(result) - 1, len(result) - 7, len(result) - 8, 0):
                refused(book, 4, word, k, d, filler(out))
    book.group("digits of either case", SAME + "; docs/CONSOLE.md")
    _, k, plain, cipher = examples[0]
    book.add("wrap %s %s %s" % (h(k).upper(), h(plain).upper(), "FF" * 24), "0 " + h(cipher))
    book.add("unwrap %s %s %s" % (h(k).upper(), h(cipher).title(), "Ff" * 16), "0 " + h(plain))


def from_file(book, root, name, word, names):
    """The first 25 records of each length of key data from 16 to 64 bytes in one NIST file."""
    source, result = names
    seen = Counter()
    for _, record in cavs(root, "keywrap/kwtestvectors/" + name):
        k, d = bytes.fromhex(record["K"]), bytes.fromhex(record[source])
        plain = len(d) if word == "wrap" else len(d) - 8
        seen[plain] += 1
        if plain > 64 or seen[plain] > 25:
            continue
        if "FAIL" in record:
            refused(book, 19, word, k, d, filler(plain))
        else:
            answer = bytes.fromhex(record[result])
            done(book, word, k, d, answer, filler(len(answer)))


def nist(book, root):
    """NIST's files of SP 800-38F's KW, whose key data has 16, 24, 32, 40 and 512 bytes."""
    for size in (128, 192, 256):
        name = "KW_AE_%d.txt" % size
        book.group("`wrap`: NIST file, the first 25 records with key data of 16, 24, 32 and 40 bytes each", NIST + name)
        from_file(book, root, name, "wrap", ("P", "C"))
    for size in (128, 192, 256):
        name = "KW_AD_%d.txt" % size
        book.group("`unwrap`: NIST file, the first 25 records with key data of 16, 24, 32 and 40 bytes each; those marked FAIL get 19", NIST + name)
        from_file(book, root, name, "unwrap", ("C", "P"))
    book.group("the same files, the first right record with key data of 512 bytes: 18", RULE + ", refusal 18")
    for size in (128, 192, 256):
        for word, name, source in (("wrap", "KW_AE_%d.txt", "P"), ("unwrap", "KW_AD_%d.txt", "C")):
            records = [r for _, r in cavs(root, "keywrap/kwtestvectors/" + name % size) if len(r.get("P", "")) == 1024]
            refused(book, 18, word, bytes.fromhex(records[0]["K"]), bytes.fromhex(records[0][source]), filler(520))


def every_length(book):
    """Key data of every length in the rule under keys of every size."""
    book.group("key data of 16, 24 and so on to 64 bytes, three key sizes, both ways, outputs as long as the result, a byte "
               "longer and 40 bytes longer", OPENSSL)
    for size in KEY_SIZES:
        for length in range(16, 65, 8):
            k, plain = key(size), data(length)
            for word, d, result in ways(plain, wrapped(k, plain)):
                for more in (0, 1, 40):
                    done(book, word, k, d, result, filler(len(result) + more))
    book.group("the same, outputs a byte shorter than the result: 4", RULE + ", refusal 4")
    for size in KEY_SIZES:
        for length in range(16, 65, 8):
            k, plain = key(size), data(length)
            for word, d, result in ways(plain, wrapped(k, plain)):
                refused(book, 4, word, k, d, filler(len(result) - 1))
    book.group("key data of zeros, of ff and of a6 under keys of zeros and of ff, both ways", OPENSSL)
    for size in KEY_SIZES:
        for k in (bytes(size), b"\xff" * size):
            for plain in (bytes(16), b"\xff" * 24, b"\xa6" * 64):
                for word, d, result in ways(plain, wrapped(k, plain)):
                    done(book, word, k, d, result, filler(len(result)))


def asked_lengths(book):
    """The lengths 8, 15, 16, 17, 64, 72 and 80 for both calls."""
    book.group("`wrap`: data of 8, 15, 16, 17, 64, 72 and 80 bytes: 16 and 64 are wrapped, the others get 18", OPENSSL)
    for size in KEY_SIZES:
        for length in (8, 15, 16, 17, 64, 72, 80):
            k, d, out = key(size, 0x77), data(length, 9), filler(100)
            if length in (16, 64):
                done(book, "wrap", k, d, wrapped(k, d), out)
            else:
                refused(book, 18, "wrap", k, d, out)
    book.group("`unwrap`: data of 8, 15, 16, 17, 64, 72 and 80 bytes: 64 and 72 are unwrapped, the others get 18, also the 80 "
               "bytes that are a wrapping", OPENSSL)
    for size in KEY_SIZES:
        for length in (8, 15, 16, 17, 64, 72, 80):
            k, out = key(size, 0x77), filler(100)
            if length in (64, 72):
                done(book, "unwrap", k, wrapped(k, data(length - 8, 9)), data(length - 8, 9), out)
            elif length == 80:
                refused(book, 18, "unwrap", k, wrapped(k, data(72, 9)), out)
            else:
                refused(book, 18, "unwrap", k, data(length, 9), out)


def wrong_lengths(book):
    """All short lengths outside the rule, and some long ones."""
    book.group("refusal 18: every other length up to 100 bytes, and 128, 256, 264, 512, 520 and 1,024, for both calls",
               RULE + ", refusal 18")
    for word, first, last in (("wrap", 16, 64), ("unwrap", 24, 72)):
        for length in (*range(101), 128, 256, 264, 512, 520, 1024):
            if length % 8 or not first <= length <= last:
                refused(book, 18, word, key(16), data(length), filler(8))


def wrong_keys(book):
    """Keys of a wrong size, and right keys that are others."""
    book.group("refusal 1: keys of 0, 15, 17, 23, 25, 31, 33 and 64 bytes; the output stays", "refusal 1; " + RULE)
    for size in WRONG_KEY_SIZES:
        refused(book, 1, "wrap", counting(size), data(16), filler(24))
        refused(book, 1, "wrap", counting(size), data(64), filler(80))
        refused(book, 1, "unwrap", counting(size), wrapped(key(16), data(16)), filler(16))
        refused(book, 1, "unwrap", counting(size), wrapped(key(32), data(64)), filler(80))
    book.group("refusal 19: under another key, of the same size and of another, with one bit of difference and with many",
               RULE + ", refusal 19; OpenSSL refuses too")
    for size in KEY_SIZES:
        d = wrapped(key(size), data(32))
        for k in (spoiled(key(size), 0, 0x80), spoiled(key(size), size - 1, 1), key(size, 0x32), bytes(size)):
            wrong(book, k, d)
        for other in KEY_SIZES:
            if other != size:
                wrong(book, key(other), d)


def short_outputs(book):
    """Outputs of many lengths below the result."""
    book.group("refusal 4: key data of 16, 40 and 64 bytes, outputs of 0, 1, 7, 8 and 15 bytes and 16, 9, 8, 7, 2 and 1 less "
               "than the result", RULE + ", refusal 4")
    for length in (16, 40, 64):
        for word, d, result in ways(data(length), wrapped(key(24), data(length))):
            full = len(result)
            for out in sorted({0, 1, 7, 8, 15, full - 16, full - 9, full - 8, full - 7, full - 2, full - 1}):
                refused(book, 4, word, key(24), d, filler(out))


def every_byte(book, root):
    """One wrapped key of each key size with each of its bytes changed in turn."""
    for number, (section, k, plain, cipher) in enumerate(rfc3394(root)):
        if section not in ("4.1", "4.4", "4.6"):
            continue
        book.group("RFC 3394's vector %s with every byte changed, by a value that goes with its place: 19; then the vector "
                   "itself" % section, RULE + ", refusal 19; OpenSSL refuses too; " + SAME)
        for place in range(len(cipher)):
            wrong(book, k, spoiled(cipher, place, 1 + (37 * place + number) % 255))
        done(book, "unwrap", k, cipher, plain, filler(len(plain)))
    k, cipher = key(16), wrapped(key(16), data(64))
    book.group("72 bytes with a bit in every byte of the first and the last register changed: 19", RULE + ", refusal 19; OpenSSL refuses "
               "too")
    for place in (*range(8), *range(64, 72)):
        wrong(book, k, spoiled(cipher, place, 1 << place % 8))


def other_initials(book):
    """Data wrapped with another initial value: each of the eight bytes counts."""
    book.group("refusal 19: wrapped with an initial value in which one byte of the eight is another, by its lowest, its highest "
               "or all of its bits", OPENSSL + ", refusal 19")
    for size in KEY_SIZES:
        for place in range(8):
            for mask in (0x01, 0x80, 0xFF):
                d = wrapped(key(size), data(24), spoiled(INITIAL, place, mask))
                wrong(book, key(size), d)
    book.group("refusal 19: wrapped with an initial value of zeros, of ff, of 59, of a6 in one half, or RFC 5649's",
               OPENSSL + ", refusal 19")
    for size in KEY_SIZES:
        for text in ("00" * 8, "ff" * 8, "59" * 8, "a6" * 4 + "00" * 4, "00" * 4 + "a6" * 4, "a65959a600000010"):
            wrong(book, key(size), wrapped(key(size), data(16), bytes.fromhex(text)))


def not_wrapped(book):
    """Data of a right length that no one wrapped so."""
    book.group("refusal 19: a wrapped key cut by a register or two at either end, with one more, turned, with two registers "
               "changed over, key data itself, zeros, a6 and ff", RULE + ", refusal 19; OpenSSL refuses too")
    for size in KEY_SIZES:
        k, d = key(size), wrapped(key(size), data(48))
        for other in (d[:-8], d[:-16], d[8:], d[16:], d + bytes(8), d + d[-8:], INITIAL + d, d[8:] + d[:8], d[-8:] + d[:-8],
                      d[:8] + d[16:24] + d[8:16] + d[24:], data(48), INITIAL + data(48), bytes(24), bytes(72),
                      b"\xa6" * 24, b"\xa6" * 72, b"\xff" * 40):
            wrong(book, k, other)
    book.group("refusal 19: outputs longer than the result stay whole", RULE + ", refusal 19; OpenSSL refuses too")
    for length in (16, 40, 64):
        d = spoiled(wrapped(key(32), data(length)), 3, 0x10)
        for more in (1, 8, 40):
            wrong(book, key(32), d, filler(length + more))


def orders(book):
    """Every set of two or more refusals: the first in the order 1, 18, 4, 19 is given."""
    book.group("order: every two or more of 1, 18 and 4, `wrap`; lengths of 17, 60, 65, 72 and 80 bytes for 18", RULE)
    for given in several((1, 18, 4)):
        for bad_size in (17, 60, 65, 72, 80) if 18 in given else (40,):
            k = counting(17) if 1 in given else key(16)
            out = filler(bad_size + 7 if 4 in given else bad_size + 8)
            refused(book, given[0], "wrap", k, data(bad_size), out)
    book.group("order: every two or more of 1, 18, 4 and 19, `unwrap`; lengths of 16, 23, 60, 73 and 80 bytes for 18; 19 would "
               "come of data with one byte changed", RULE)
    for given in several((1, 18, 4, 19)):
        for size in (16, 23, 60, 73, 80) if 18 in given else (40,):
            k = counting(31) if 1 in given else key(16)
            d = (wrapped(key(16), data(72)) if 18 in given else wrapped(key(16), data(32)))[:size]
            if 19 in given:
                d = spoiled(d, 11, 4)
            refused(book, given[0], "unwrap", k, d, filler(size - 9 if 4 in given else size - 8))
    book.group("order: the same pairs at the edges, keys of no bytes, data of no bytes, outputs of none", RULE)
    for word, right in (("wrap", data(16)), ("unwrap", wrapped(key(16), data(16)))):
        refused(book, 1, word, b"", b"", b"")
        refused(book, 1, word, b"", right, b"")
        refused(book, 1, word, b"", b"", filler(24))
        refused(book, 18, word, key(16), b"", b"")
        refused(book, 18, word, key(16), right[:-1], b"")
        refused(book, 4, word, key(16), right, b"")
    refused(book, 4, "unwrap", key(16), bytes(24), b"")


def several(numbers):
    """Every choice of two or more of some numbers, in their order."""
    return [c for size in range(2, len(numbers) + 1) for c in combinations(numbers, size)]


def bad_lines(book):
    """Lines outside the form."""
    book.group("bad lines for both calls: words missing or too many, odd digits, no digits, spaces, other bytes, a first word "
               "that is none", "docs/CONSOLE.md")
    k, out = h(key(16)), h(filler(24))
    for word, d in (("wrap", h(data(16))), ("unwrap", h(wrapped(key(16), data(16))))):
        for rest in ([], [k], [k, d], [k, d, out, out], [k, d, out, "-"], [k + "0", d, out], [k[1:], d, out],
                     [k, d + "0", out], [k, d[1:], out], [k, d, out + "0"], [k, d, out[1:]], [k[:-1] + "g", d, out],
                     [k, "x" + d[1:], out], [k, d, out[:-1] + "/"], ["", k, d, out], [k, "", d, out], [k, d, "", out],
                     [k, d, out, ""], [k, d, out + "\r"], [k, d + "\t", out], ["--", d, out], [k, "-" + d, out],
                     [k, d, "+"], [k, d, ""], ["0", d, out], [counting(15).hex() + "0", d, out]):
            book.bad(" ".join([word] + rest))
        for name in (word.upper(), word.title(), word + "s", word[:-1], word + "-key", " " + word, word + "\0", "re" + word):
            book.bad("%s %s %s %s" % (name, k, d, out))
        book.bad("%s\t%s %s %s" % (word, k, d, out))


def main(root, folder):
    """Write the lines of this part."""
    book = Book("Lines for the key wrap")
    book.remark("Packages: golang-github-dvsekhvalnov-jose2go-dev 1.5-1 and "
                "python3-cryptography-vectors 38.0.4-1 (Debian 12), with the command `openssl` of version 3 (package openssl). "
                "No answer comes from a program of this project: all are copied from the named source, or made by `openssl enc "
                "-id-aes128-wrap` (192, 256), or follow from E2 and docs/CONSOLE.md. Where OpenSSL is "
                "named beside 19, the script has OpenSSL unwrap the same data and stops unless it refuses.")
    book.remark("RFC 3394's vectors stand in the test file with every value twice, as digits and as a list; the reader of them "
                "stops where the two differ. NIST's files are those of the forward cipher (not `_inv`); their key data of 512 "
                "bytes is outside the rule, so these records are left out except six.")
    book.remark("Data that is damaged after wrapping changes all of the initial value, so that a comparison of some of its bytes "
                "would refuse it too. The groups of other initial values are those that see all eight compared.")
    book.remark("The lines hold nothing from one to the next and may stand in any order.")
    standard(book, root)
    nist(book, root)
    every_length(book)
    asked_lengths(book)
    wrong_lengths(book)
    wrong_keys(book)
    short_outputs(book)
    every_byte(book, root)
    other_initials(book)
    not_wrapped(book)
    orders(book)
    bad_lines(book)
    book.write(folder)


if __name__ == "__main__":
    main(sys.argv[1], sys.argv[2])
