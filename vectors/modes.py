"""Lines for the modes ECB, CBC, CFB and OFB: python3 modes.py ROOT FOLDER (ROOT: the unpacked packages)."""

import subprocess
import sys

from lines import Book, counting, filler, h, laid_over
from sources import cavs, sp800_38a

WHOLE_ONLY = ("ecb", "cbc", "cfb")
WAYS = ("encrypt", "decrypt")
WRONG_KEY_SIZES = (0, 15, 17, 23, 25, 31, 33, 64)
KEY = counting(16)
OFB_SHORT = tuple(range(50))
KEY_SIZES = (16, 24, 32)
IV = bytes((0xF3 - 9 * i) & 0xFF for i in range(16))
CHAINED = ("cbc", "cfb")
BAD_IV = IV[:15]


def word(mode, way):
    """The first word of a line: OFB has one for both ways."""
    return mode if mode == "ofb" else "%s-%s" % (mode, way)


def line(mode, way, key, iv, data, out):
    """One line of a mode."""
    return "%s %s %s %s %s" % (word(mode, way), h(key), h(iv), h(data), h(out))


def answer(mode, number, following, out):
    """The answer to a line: ECB has no chaining value to hand on."""
    return "%d %s" % (number, h(out)) if mode == "ecb" else "%d %s %s" % (number, h(following), h(out))


def handed_on(mode, way, iv, data, result):
    """The chaining value after whole pieces. The last output block of OFB is the sum of what went in and what came out."""
    if not data:
        return iv
    if mode == "ofb":
        return bytes(a ^ b for a, b in zip(data[-16:], result[-16:]))
    return (result if way == "encrypt" else data)[-16:]


def done(book, mode, way, key, iv, data, result, out, following=None):
    """A line that is carried out: the result lies over the front of the output."""
    following = handed_on(mode, way, iv, data, result) if following is None else following
    book.add(line(mode, way, key, iv, data, out), answer(mode, 0, following, laid_over(result, out)))


def refused(book, number, mode, way, key, iv, data, out):
    """A line that is refused: the output stays as it was, and zeros are handed on."""
    book.add(line(mode, way, key, iv, data, out), answer(mode, number, bytes(16), out))


def right_iv(mode):
    """An IV of the length the mode takes."""
    return b"" if mode == "ecb" else counting(16)


def wrong_ivs(mode):
    """IVs of lengths the mode does not take."""
    sizes = (1, 8, 15, 16, 17, 32) if mode == "ecb" else (0, 1, 8, 15, 17, 32)
    return [counting(size) for size in sizes]


def every_mode():
    """The seven words, as (mode, way)."""
    return [(mode, way) for mode in WHOLE_ONLY for way in WAYS] + [("ofb", "encrypt")]


def ways(plain, cipher):
    """Each way with its input and its result."""
    return (("encrypt", plain, cipher), ("decrypt", cipher, plain))


def standard(book, root):
    """SP 800-38A appendix F whole, in its first blocks, and into longer outputs."""
    examples = sp800_38a(root)
    package = "libcrypto++-utils, TestVectors/aes.txt"
    book.group("examples F.1 to F.4 (CFB128 only), three key sizes, both ways, output as long as the input",
               "SP 800-38A appendix F, as quoted in " + package)
    for mode, _, key, iv, plain, cipher in examples:
        for way, data, result in ways(plain, cipher):
            done(book, mode, way, key, iv, data, result, filler(len(data)))
    book.group("the same, the first 16, 32 and 48 bytes alone", "SP 800-38A appendix F (block by block), same file")
    for mode, _, key, iv, plain, cipher in examples:
        for way, data, result in ways(plain, cipher):
            for size in (16, 32, 48):
                done(book, mode, way, key, iv, data[:size], result[:size], filler(size))
    book.group("the same whole, outputs 1, 16 and 33 bytes longer than the input: the bytes past it stay",
               "SP 800-38A appendix F, same file; R22")
    for mode, _, key, iv, plain, cipher in examples:
        for way, data, result in ways(plain, cipher):
            for more in (1, 16, 33):
                done(book, mode, way, key, iv, data, result, filler(len(data) + more))


def from_file(book, root, mode, folder, name):
    """One NIST file, both sections."""
    words = "`, `".join(sorted({word(mode, way) for way in WAYS}, reverse=True))
    book.group("`%s`: NIST file, both sections" % words,
               "python3-cryptography-vectors, ciphers/AES/%s/%s" % (folder, name))
    for section, record in cavs(root, "ciphers/AES/%s/%s" % (folder, name)):
        key, iv, plain, cipher = (bytes.fromhex(record.get(x, "")) for x in ("KEY", "IV", "PLAINTEXT", "CIPHERTEXT"))
        for way, data, result in ways(plain, cipher):
            if way == section.lower():
                done(book, mode, way, key, iv, data, result, filler(len(data)))


def known_answers(book, root):
    """NIST's GFSbox and KeySbox files of the chained modes."""
    for mode, folder, prefix in (("cbc", "CBC", "CBC"), ("cfb", "CFB", "CFB128"), ("ofb", "OFB", "OFB")):
        for kind in ("GFSbox", "KeySbox"):
            for size in (128, 192, 256):
                from_file(book, root, mode, folder, "%s%s%d.rsp" % (prefix, kind, size))


def multi_block(book, root):
    """NIST's multi-block message files of all four modes: 1 to 10 blocks."""
    for mode, folder, prefix in (("ecb", "ECB", "ECB"), ("cbc", "CBC", "CBC"), ("cfb", "CFB", "CFB128"),
                                 ("ofb", "OFB", "OFB")):
        for size in (128, 192, 256):
            from_file(book, root, mode, folder, "%sMMT%d.rsp" % (prefix, size))


def empty_input(book):
    """Input of length 0 is accepted and writes nothing."""
    book.group("empty input, three key sizes, outputs of 0, 1, 16 and 33 bytes: accepted, nothing written",
               "R22")
    for mode, way in every_mode():
        for size in (16, 24, 32):
            for out in (0, 1, 16, 33):
                done(book, mode, way, counting(size), right_iv(mode), b"", b"", filler(out))
    book.group("empty input is refused with 1 and 2 as any other", "refusals 1 and 2")
    for mode, way in every_mode():
        refused(book, 1, mode, way, b"", right_iv(mode), b"", b"")
        refused(book, 1, mode, way, counting(15), right_iv(mode), b"", filler(5))
        refused(book, 2, mode, way, KEY, wrong_ivs(mode)[0], b"", b"")


def single_refusals(book):
    """Each refusal with everything else right."""
    book.group("refusal 1: keys of 0, 15, 17, 23, 25, 31, 33 and 64 bytes; the output stays", "refusal 1")
    for mode, way in every_mode():
        for size in WRONG_KEY_SIZES:
            refused(book, 1, mode, way, counting(size), right_iv(mode), counting(16), filler(16))
    book.group("refusal 2: IVs of 0 (except ECB), 1, 8, 15, 16 (ECB alone), 17 and 32 bytes", "refusal 2")
    for mode, way in every_mode():
        for iv in wrong_ivs(mode):
            refused(book, 2, mode, way, KEY, iv, counting(16), filler(16))


def refusals_3(book):
    """Inputs that are no whole pieces, in outputs that would hold them."""
    book.group("refusal 3, ECB, CBC and CFB: inputs of 1, 8, 15, 17, 24, 31, 33 and 47 bytes",
               "refusal 3; E1")
    for mode in WHOLE_ONLY:
        for way in WAYS:
            for size in (1, 8, 15, 17, 24, 31, 33, 47):
                refused(book, 3, mode, way, KEY, right_iv(mode), counting(size), filler(48))
            refused(book, 3, mode, way, KEY, right_iv(mode), counting(17), filler(17))


def refusals_4(book):
    """Outputs shorter than the input."""
    book.group("refusal 4: inputs of 16, 32 and 64 bytes, outputs from 0 bytes to one less than the input",
               "refusal 4")
    for mode, way in every_mode():
        for size, outs in ((16, (0, 1, 15)), (32, (0, 16, 31)), (64, (48, 63))):
            for out in outs:
                refused(book, 4, mode, way, KEY, right_iv(mode), counting(size), filler(out))


def order_1_2(book):
    """Lines that earn 1 or 2 and something behind it: the first in the order 1, 2, 3, 4 is given."""
    book.group("order: every set of two or more of 1, 2, 3, 4 that holds 1 or 2", "R37 (orders)")
    bad_key, whole, odd, enough, short = counting(17), counting(16), counting(17), filler(32), filler(15)
    for mode, way in every_mode():
        good, bad = right_iv(mode), wrong_ivs(mode)[3]
        refused(book, 1, mode, way, bad_key, bad, whole, enough)
        refused(book, 1, mode, way, bad_key, good, odd, enough)
        refused(book, 1, mode, way, bad_key, good, whole, short)
        refused(book, 2, mode, way, KEY, bad, odd, enough)
        refused(book, 2, mode, way, KEY, bad, whole, short)
        refused(book, 1, mode, way, bad_key, bad, odd, enough)
        refused(book, 1, mode, way, bad_key, bad, whole, short)
        refused(book, 1, mode, way, bad_key, good, odd, short)
        refused(book, 2, mode, way, KEY, bad, odd, short)
        refused(book, 1, mode, way, bad_key, bad, odd, short)


def order_3_4(book):
    """Lines that earn 3 and 4: 3 is given."""
    book.group("order: 3 before 4, ECB, CBC and CFB", "R37 (orders)")
    for mode in WHOLE_ONLY:
        for way in WAYS:
            for out in (0, 15, 16):
                refused(book, 3, mode, way, KEY, right_iv(mode), counting(17), filler(out))


def bad_lines(book):
    """Lines outside the form, for each of the seven words."""
    book.group("bad lines: words missing or too many, odd digits, no digits, two spaces, a space or a carriage return "
               "behind, upper case in the first word", "docs/CONSOLE.md")
    key, piece, out = h(KEY), h(counting(16)), h(filler(16))
    for mode, way in every_mode():
        first, iv = word(mode, way), h(right_iv(mode))
        for rest in ([], [key], [key, iv], [key, iv, piece], [key, iv, piece, out, out], [key, iv, piece, out, "-"],
                     [key + "0", iv, piece, out], [key, "0", piece, out], [key, iv, piece[1:], out],
                     [key, iv, piece, out[1:]], [key, iv, piece[:-1] + "g", out], [key, iv, piece, "x" + out[1:]],
                     [key, iv, "", piece, out], [key, iv, piece, out, ""], [key, iv, piece, out + "\r"],
                     [key, "--", piece, out], [key, iv, piece, "+"]):
            book.bad(" ".join([first] + rest))
        book.bad("%s %s %s %s %s" % (first.upper(), key, iv, piece, out))
        book.bad("%s_%s %s %s %s %s" % (mode, way, key, iv, piece, out))


def old_names(book):
    """OFB had a word for each way: both are unknown now, with whatever would be read or refused."""
    book.group("bad lines: `ofb-encrypt` and `ofb-decrypt`, good and refused before", "E7")
    for way in WAYS:
        for key, iv, size, room in ((16, 16, 16, 16), (32, 16, 17, 20), (24, 16, 0, 0), (17, 16, 16, 16), (16, 0, 16, 16),
                                    (16, 16, 16, 15)):
            words = " ".join(h(counting(length)) for length in (key, iv, size))
            book.bad("ofb-%s %s %s" % (way, words, h(filler(room))))


def long_lines(book, root):
    """A line of exactly 65,536 bytes is read."""
    mode, _, key, iv, plain, cipher = sp800_38a(root)[0]
    at_bound = filler(32728)
    book.group("a line of exactly 65,536 bytes: read, the long output stays past the first 16 bytes",
               "SP 800-38A F.1.1, same file; docs/CONSOLE.md")
    done(book, mode, "encrypt", key, iv, plain[:16], cipher[:16], at_bound)


def key(size):
    """A key of its own for each size."""
    return bytes((3 * size + 13 * i) & 0xFF for i in range(size))


def text(size):
    """An input in which no two neighbouring pieces are equal."""
    return bytes((11 * i + i // 16 * 5 + 0x42) & 0xFF for i in range(size))


def ofb_by_openssl(k, data):
    """What OpenSSL makes of the data, encrypting."""
    words = ["openssl", "enc", "-aes-%d-ofb" % (8 * len(k)), "-K", k.hex(), "-iv", IV.hex()]
    return subprocess.run(words, input=data, capture_output=True, check=True).stdout


def last_output(k, size):
    """The last output block that so many bytes need, all 16 bytes: what OpenSSL makes of zeros up to its end."""
    return ofb_by_openssl(k, bytes((size + 15) // 16 * 16))[-16:] if size else IV


def ofb_lengths(book, sizes, what):
    """Each length there and back, the key sizes by turns, into an output as long, a longer one and one a byte short."""
    book.group(what + ", the key sizes by turns, there and back, output as long, 21 bytes longer and, refused with 4, a byte short",
               "OpenSSL; E1 and E7; refusal 4")
    for size in sizes:
        k, plain = key(KEY_SIZES[size % 3]), text(size)
        cipher, following = ofb_by_openssl(k, plain), last_output(k, size)
        for data, result in ((plain, cipher), (cipher, plain)):
            done(book, "ofb", "", k, IV, data, result, filler(size), following)
            done(book, "ofb", "", k, IV, data, result, filler(size + 21), following)
            if size:
                refused(book, 4, "ofb", "", k, IV, data, filler(size - 1))


def ofb_refusals(book):
    """Each refusal of an input that is no whole pieces, and every set of two or more: the first of 1, 2, 4 is given."""
    book.group("inputs of 1, 15, 17 and 33 bytes refused with 1, 2 and 4, and order: every set of two or more of them",
               "R37 (orders); E1")
    bad_key, good, bad = counting(17), right_iv("ofb"), wrong_ivs("ofb")[3]
    for data in map(counting, (1, 15, 17, 33)):
        enough, short = filler(len(data)), filler(len(data) - 1)
        refused(book, 1, "ofb", "", bad_key, good, data, enough)
        refused(book, 2, "ofb", "", KEY, bad, data, enough)
        refused(book, 4, "ofb", "", KEY, good, data, b"")
        refused(book, 1, "ofb", "", bad_key, bad, data, enough)
        refused(book, 1, "ofb", "", bad_key, good, data, short)
        refused(book, 2, "ofb", "", KEY, bad, data, short)
        refused(book, 1, "ofb", "", bad_key, bad, data, short)


def sealed(mode, k, iv, plain):
    """What OpenSSL encrypts the text to."""
    words = ["openssl", "enc", "-aes-%d-%s" % (8 * len(k), mode), "-K", k.hex(), "-nopad"] + (["-iv", iv.hex()] if iv else [])
    return subprocess.run(words, input=plain, capture_output=True, check=True).stdout


def after(mode, k, cipher, at):
    """The chaining value after so many bytes of the input, whole pieces or all of it."""
    if mode == "ofb":
        return last_output(k, at)
    return cipher[at - 16:at] if at else IV


def in_two_calls(book, mode, k, size, cuts):
    """One call, and for each cut two that give the same, both ways."""
    plain = text(size)
    cipher = sealed(mode, k, IV, plain)
    end = after(mode, k, cipher, size)
    for way, data, result in ways(plain, cipher):
        done(book, mode, way, k, IV, data, result, filler(size), end)
        for at in cuts:
            between = after(mode, k, cipher, at)
            if sealed(mode, k, between, plain[at:]) != cipher[at:]:
                raise ValueError("OpenSSL's two calls are not its one")
            done(book, mode, way, k, IV, data[:at], result[:at], filler(at), between)
            done(book, mode, way, k, between, data[at:], result[at:], filler(size - at), end)


def short_inputs(book):
    """Lengths up to 49 that the mode takes, cut behind each of their whole pieces."""
    book.group("inputs of 0 to 48 bytes of whole pieces, of OFB also 1, 15, 17, 31, 33, 47 and 49, cut behind every whole piece: one call, then "
               "two for each cut; three key sizes, of OFB for 0, 16, 33 and 48, both ways", "OpenSSL; E4")
    for k in map(key, KEY_SIZES):
        for mode in CHAINED:
            for size in range(0, 50, 16):
                in_two_calls(book, mode, k, size, range(0, size + 1, 16))
        for size in (0, 16, 33, 48):
            in_two_calls(book, "ofb", k, size, range(0, size + 1, 16))
    for size in (1, 15, 17, 31, 32, 47, 49):
        in_two_calls(book, "ofb", key(16), size, range(0, size + 1, 16))


def long_inputs(book):
    """One long input for each mode, under a key size of its own; ECB has nothing to hand on, so it is one call."""
    book.group("a long input for each mode: 1,040 bytes in ECB, and of CBC 1,040, CFB 1,008 and OFB 1,025 cut once: one call, then two; both ways",
               "OpenSSL; E4")
    plain = text(1040)
    for way, data, result in ways(plain, sealed("ecb", key(16), None, plain)):
        done(book, "ecb", way, key(16), b"", data, result, filler(1040))
    in_two_calls(book, "cbc", key(24), 1040, [1024])
    in_two_calls(book, "cfb", key(32), 1008, [512])
    in_two_calls(book, "ofb", key(16), 1025, [1024])


def handed_refusals(book):
    """Each refusal, with an IV that is not zero."""
    book.group("refusals 1, 2, 3 (except in OFB) and 4: zeros are handed on, not the IV", "R37; E4")
    for mode in CHAINED + ("ofb",):
        for way in WAYS[:1] if mode == "ofb" else WAYS:
            for size in KEY_SIZES:
                k, data = key(size), text(32)
                refused(book, 1, mode, way, k[:-1], IV, data, filler(32))
                refused(book, 2, mode, way, k, BAD_IV, data, filler(32))
                if mode != "ofb":
                    refused(book, 3, mode, way, k, IV, data[:-1], filler(32))
                refused(book, 4, mode, way, k, IV, data, filler(31))
                refused(book, 1, mode, way, k[:-1], IV, b"", b"")


def main(root, folder):
    """Write the lines of this part."""
    book = Book("Lines for the modes ECB, CBC, CFB and OFB")
    book.remark("Packages: libcrypto++-utils 8.7.0+git220824-1 and python3-cryptography-vectors 38.0.4-1; the command `openssl` of version 3 "
                "(Debian 12). No answer comes from a program of this project: all are copied from the named source, made by OpenSSL, or follow "
                "from the rules of docs/REQUIREMENTS.md and docs/CONSOLE.md.")
    book.part("Inputs in two calls, with the chaining value handed on", "The results of two calls are parts of what OpenSSL makes of the "
              "whole; the script checks that OpenSSL itself, given the value handed on, makes the same. The last output block of OFB is "
              "what OpenSSL makes of zeros.")
    short_inputs(book)
    long_inputs(book)
    handed_refusals(book)
    book.part("OFB on inputs of any length", "Every cipher byte comes from OpenSSL.")
    ofb_lengths(book, OFB_SHORT, "inputs of 0 to 49 bytes")
    ofb_refusals(book)
    book.part("Published vectors, refusals and bad lines", "SP 800-38A prints each example both ways with the same values. Crypto++ quotes the "
              "encryptions; the decryptions are the same values the other way round. The chaining value that CBC and CFB hand on is the last "
              "block of the ciphertext, that of OFB the sum of the last blocks of plain text and ciphertext: SP 800-38A, 6.2 to 6.4.")
    standard(book, root)
    known_answers(book, root)
    multi_block(book, root)
    empty_input(book)
    single_refusals(book)
    refusals_3(book)
    refusals_4(book)
    order_1_2(book)
    order_3_4(book)
    bad_lines(book)
    old_names(book)
    long_lines(book, root)
    book.write(folder)


if __name__ == "__main__":
    main(sys.argv[1], sys.argv[2])
