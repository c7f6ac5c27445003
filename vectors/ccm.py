"""Lines for CCM: python3 ccm.py ROOT FOLDER (ROOT: the unpacked packages), with Python's package cryptography.

`python3 ccm.py ROOT --second PROGRAM` holds the second program's CCM, which takes every length, to published vectors: every record of NIST's
CCM files and of crypto++'s file, which has SP 800-38C's examples and RFC 3610's packets: sealed, opened, and refused where it says Fail."""

import os
import subprocess
import sys
from itertools import combinations, product

from cryptography.exceptions import InvalidTag
from cryptography.hazmat.primitives.ciphers.aead import AESCCM

from lines import Book, filler, h, laid_over
from sources import CAVS, text_of

KEY_SIZES = (16, 24, 32)
WRONG_KEY_SIZES = (0, 15, 17, 23, 25, 31, 33, 64)
CRYPTOPP = "usr/share/crypto++/TestVectors/ccm.txt"
NIST = "python3-cryptography-vectors, ciphers/AES/CCM/"
OTHERS = "libcrypto++-utils, TestVectors/ccm.txt"
RFC3610 = "RFC 3610, section 8, as quoted in " + OTHERS
PACKET_KEY = bytes(range(0xC0, 0xD0))
SECOND_FILES = ["%s%d.rsp" % (name, size) for name in ("VADT", "VNT", "VPT", "VTT", "DVPT") for size in (128, 192, 256)]
RULE = "E14"
LIBCRYPTO = "Python's cryptography (AESCCM, tag_length=8); " + RULE


def records(root, name):
    """Every record of one NIST file: (key, nonce, associated data, message or None, ciphertext and tag, length of the tag)."""
    fields, found = {}, []

    def close():
        if "CT" not in fields:
            return
        get = lambda name, size: bytes.fromhex(fields[name])[:int(fields[size])]
        message = get("Payload", "Plen") if "Payload" in fields else None
        found.append((bytes.fromhex(fields["Key"]), bytes.fromhex(fields["Nonce"]), get("Adata", "Alen"), message,
                      bytes.fromhex(fields["CT"]), int(fields["Tlen"])))
        for used in ("CT", "Payload", "Result"):
            fields.pop(used, None)

    for line in text_of(root, os.path.join(CAVS, "ciphers/AES/CCM", name)).splitlines():
        line = line.strip()
        if not line or line.startswith("#"):
            continue
        if line.startswith(("Count", "Key", "[")):
            close()
        for part in line.strip("[]").split(","):
            key, value = part.split("=")
            fields[key.strip()] = value.strip()
    close()
    return found


def others(root):
    """Every record of crypto++'s file: (key, nonce, associated data, message, ciphertext and tag, length of the tag)."""
    fields, found = {}, []
    for line in text_of(root, CRYPTOPP).replace("\\\n", " ").splitlines():
        name, _, value = line.partition(":")
        fields[name.strip()] = value.strip()
        if name.strip() != "Test":
            continue
        if fields["Test"] == "Encrypt" and fields.get("Name") == "AES/CCM":
            mac = repeated(fields["MAC"])
            found.append((repeated(fields["Key"]), repeated(fields["IV"]), repeated(fields["Header"]),
                          repeated(fields["Plaintext"]), repeated(fields["Ciphertext"]) + mac, len(mac)))
    return found


def repeated(text):
    """Hex digits, or `r256 DIGITS` for as many times."""
    if text.startswith("r"):
        times, digits = text[1:].split()
        return bytes.fromhex(digits) * int(times)
    return bytes.fromhex("".join(text.split()))


def data(size, start=5):
    """Bytes that are no other ones'."""
    return bytes((start + 41 * i + i // 7) & 0xFF for i in range(size))


def sealed(k, n, a, m):
    """A message sealed by libcrypto."""
    return AESCCM(k, tag_length=8).encrypt(n, m, a)


def opens(k, n, a, s):
    """Whether libcrypto opens it."""
    try:
        AESCCM(k, tag_length=8).decrypt(n, s, a)
    except InvalidTag:
        return False
    return True


def line(word, k, n, a, t, out):
    """A console line."""
    return "%s %s %s %s %s %s" % (word, h(k), h(n), h(a), h(t), h(out))


def done(book, word, k, n, a, t, result, out):
    """A line that is carried out: the result lies over the front of the output."""
    book.add(line(word, k, n, a, t, out), "0 " + h(laid_over(result, out)))


def refused(book, number, word, k, n, a, t, out):
    """A line that is refused: the output stays as it was."""
    book.add(line(word, k, n, a, t, out), "%d %s" % (number, h(out)))


def both(book, k, n, a, m, s, more=0):
    """Sealing and opening, into outputs with so many bytes more than the result."""
    done(book, "ccm-seal", k, n, a, m, s, filler(len(s) + more))
    done(book, "ccm-open", k, n, a, s, m, filler(len(m) + more))


def wrong(book, k, n, a, s, out=None):
    """A sealed message of the profile that libcrypto does not open either: 24."""
    if opens(k, n, a, s):
        raise ValueError("libcrypto opens it")
    refused(book, 24, "ccm-open", k, n, a, s, filler(len(s) - 8) if out is None else out)


def spoiled(d, place, mask):
    """Data with one byte changed."""
    return d[:place] + bytes([d[place] ^ mask]) + d[place + 1:]


def standard(book, root):
    """Published vectors of the profile."""
    for size in (128, 192, 256):
        name = "VTT%d.rsp" % size
        book.group("NIST file, the records with a tag of 8, both ways", NIST + name)
        for k, n, a, m, s, tag in records(root, name):
            if tag == 8 and len(n) == 13:
                both(book, k, n, a, m, s)
    fits = [record for record in others(root) if record[5] == 8 and len(record[1]) == 13 and len(record[2]) <= 64]
    packets = [record for record in fits if record[0] == PACKET_KEY]
    if len(packets) != 6:
        raise ValueError("packet vectors 1 to 6 have a tag of 8")
    book.group("packet vectors 1 to 6, both ways, outputs as long as the result and 33 bytes longer", RFC3610)
    for record in packets:
        for more in (0, 33):
            both(book, *record[:5], more)
    book.group("the other examples with a tag of 8 and a nonce of 13, most of them of IEEE 802.11, both ways", OTHERS)
    for record in fits:
        if record not in packets:
            both(book, *record[:5])
    book.group("the first record of each NIST file with a tag of another length, or a nonce: 24 or 23", RULE + "; " + NIST[:-1])
    for size in (128, 192, 256):
        for name in ("VTT", "VNT"):
            k, n, a, m, s, _ = records(root, "%s%d.rsp" % (name, size))[0]
            number = 24 if len(n) == 13 else 23
            refused(book, number, "ccm-open", k, n, a, s, filler(len(s) - 8))


def lengths(book):
    """Lengths around the edges of pieces, under keys of every size."""
    book.group("messages of 0, 1, 15, 16, 17, 31, 32 and 33 bytes with associated data of 0, 1, 13, 14, 15, 29, 30, 31, 46, 62, 63 and 64, the "
               "key sizes by turns, both ways", LIBCRYPTO)
    n = data(13, 77)
    for p, a in product((0, 1, 15, 16, 17, 31, 32, 33), (0, 1, 13, 14, 15, 29, 30, 31, 46, 62, 63, 64)):
        k = data(KEY_SIZES[(p + a) % 3], 49)
        both(book, k, n, data(a, 3), data(p), sealed(k, n, data(a, 3), data(p)))
    book.group("messages of 1,007, 1,008 and 1,024 bytes, with associated data of 0, 13 and 64, both ways", LIBCRYPTO)
    for size, p, a in ((16, 1007, 0), (24, 1008, 13), (32, 1024, 64)):
        k = data(size, 49)
        both(book, k, n, data(a, 3), data(p), sealed(k, n, data(a, 3), data(p)))
    book.group("every length of message from 0 to 49 with 20 bytes of associated data, and every length of associated data from 0 to 64 "
               "with 20 bytes of message, both ways", LIBCRYPTO)
    k = data(16, 49)
    for p in range(50):
        both(book, k, n, data(20), data(p), sealed(k, n, data(20), data(p)))
    for a in range(65):
        both(book, k, n, data(a), data(20), sealed(k, n, data(a), data(20)))
    book.group("zeros and ff in key, nonce, associated data and message, both ways", LIBCRYPTO)
    for bits in product((0, 255), repeat=4):
        k, n, a, m = (bytes([byte]) * size for byte, size in zip(bits, (16, 13, 40, 40)))
        both(book, k, n, a, m, sealed(k, n, a, m))
    book.group("outputs a byte longer, 8 and 40 bytes longer: the bytes past the result stay", LIBCRYPTO)
    k, n = data(32, 49), data(13, 9)
    for p, more in product((0, 5, 16, 100), (1, 8, 40)):
        both(book, k, n, data(9), data(p), sealed(k, n, data(9), data(p)), more)


def damaged(book):
    """Every byte of one message, of its nonce, its associated data and its key."""
    k, n, a, m = data(16, 49), data(13, 77), data(21, 3), data(37)
    s = sealed(k, n, a, m)
    for what, part in (("ciphertext and tag", s), ("nonce", n), ("associated data", a), ("key", k)):
        book.group("every byte of the %s changed, by a value that goes with its place: 24" % what, RULE + ", refusal 24; libcrypto refuses too")
        for place in range(len(part)):
            x = spoiled(part, place, 1 << place % 8)
            parts = [x if part is other else other for other in (k, n, a, s)]
            wrong(book, *parts)
    book.group("every bit of the tag changed, and the message itself", RULE + ", refusal 24; libcrypto refuses too; " + LIBCRYPTO)
    for bit in range(64):
        wrong(book, k, n, a, spoiled(s, len(m) + bit // 8, 1 << bit % 8))
    both(book, k, n, a, m, s)
    book.group("cut, longer, turned, the tag alone, in front, or of another message; associated data for message; outputs longer than the "
               "result stay whole", RULE + ", refusal 24; libcrypto refuses too")
    other = sealed(k, n, a, m[::-1])
    for x in (s[:-1], s[1:], s + b"\0", s[8:] + s[:8], s[-8:], s[-8:] + s[:-8], s[:-8] + other[-8:], other[:-8] + s[-8:], bytes(8), bytes(45)):
        wrong(book, k, n, a, x)
        wrong(book, k, n, a, x, filler(60))
    for x in (b"", a + b"\0", a[:-1], a + m[:1], m[:21]):
        wrong(book, k, n, x, s)
    wrong(book, k, n, b"", sealed(k, n, b"\0", m))
    wrong(book, k, n, b"\0", sealed(k, n, b"", m))


def refusals(book):
    """1, 23 and 4, alone and in their order."""
    k, n, a, m = data(16, 49), data(13, 77), data(20, 3), data(30)
    s = sealed(k, n, a, m)
    book.group("refusal 1: keys of 0, 15, 17, 23, 25, 31, 33 and 64 bytes", "refusal 1; " + RULE)
    for size in WRONG_KEY_SIZES:
        refused(book, 1, "ccm-seal", data(size), n, a, m, filler(38))
        refused(book, 1, "ccm-open", data(size), n, a, s, filler(30))
    book.group("refusal 23: nonces of 0, 7, 8, 11, 12, 14, 15, 16 and 32 bytes; associated data of 65, 66, 80, 255 and 256; messages "
               "of 1,025, 1,032 and 1,040, and sealed ones of these and 8 bytes more; sealed messages of 0 to 7 bytes", RULE + ", refusal 23")
    for size in (0, 7, 8, 11, 12, 14, 15, 16, 32):
        refused(book, 23, "ccm-seal", k, data(size), a, m, filler(38))
        refused(book, 23, "ccm-open", k, data(size), a, s, filler(30))
    for size in (65, 66, 80, 255, 256):
        refused(book, 23, "ccm-seal", k, n, data(size), m, filler(38))
        refused(book, 23, "ccm-open", k, n, data(size), sealed(k, n, data(size), m), filler(30))
    for size in (1025, 1032, 1040):
        refused(book, 23, "ccm-seal", k, n, a, data(size), filler(size + 8))
        refused(book, 23, "ccm-open", k, n, a, sealed(k, n, a, data(size)), filler(size))
    for size in range(8):
        refused(book, 23, "ccm-open", k, n, a, data(size), filler(40))
    book.group("refusal 4: outputs a byte, 7, 8 and 9 shorter than the result, and none", RULE + ", refusal 4")
    for p in (0, 1, 9, 16, 30):
        t = sealed(k, n, a, data(p))
        for less in (1, 7, 8, 9):
            if less <= p + 8:
                refused(book, 4, "ccm-seal", k, n, a, data(p), filler(p + 8 - less))
            if less <= p:
                refused(book, 4, "ccm-open", k, n, a, t, filler(p - less))
        refused(book, 4, "ccm-seal", k, n, a, data(p), b"")
    book.group("order: every two or more of 1, 23 and 4, sealing, and of 1, 23, 4 and 24, opening; 23 for each of its three lengths", RULE)
    for word, rules in (("ccm-seal", (1, 23, 4)), ("ccm-open", (1, 23, 4, 24))):
        for count in range(2, len(rules) + 1):
            for chosen in combinations(rules, count):
                for which in range(3 if 23 in chosen else 1):
                    text = m if word == "ccm-seal" else spoiled(s, 3, 1) if 24 in chosen else s
                    x, y = n, a
                    if 23 in chosen:
                        x = data(12) if which == 0 else n
                        y = data(65) if which == 1 else a
                        if which == 2:
                            text = data(1025) if word == "ccm-seal" else data(7)
                    room = max(len(text) + (8 if word == "ccm-seal" else -8), 1)
                    out = filler(room - (1 if 4 in chosen else 0))
                    refused(book, chosen[0], word, data(15) if 1 in chosen else k, x, y, text, out)


def bad_lines(book):
    """Lines outside the console's form."""
    book.group("bad lines for both calls: words missing or too many, odd digits, no digits, spaces, other bytes, a first word that is none",
               "docs/CONSOLE.md")
    k, n, a, m, out = (h(part) for part in (data(16, 49), data(13, 77), data(20, 3), data(30), filler(38)))
    for word in ("ccm-seal", "ccm-open"):
        right = [k, n, a, m, out]
        for count in range(5):
            book.bad(" ".join([word] + right[:count]))
        book.bad(" ".join([word] + right + ["-"]))
        for place in range(5):
            for text in (right[place] + "0", right[place][1:], right[place][:-1] + "g", "", "--", "x" + right[place][1:]):
                book.bad(" ".join([word] + right[:place] + [text] + right[place + 1:]))
        for name in (word.upper(), word + "s", word[:-1], word.replace("-", "_"), word.replace("-", ""), " " + word, "seal", "open"):
            book.bad(" ".join([name] + right))
        book.bad(" ".join([word] + right) + "\r")
    book.group("digits of either case", LIBCRYPTO + "; docs/CONSOLE.md")
    s = sealed(data(16, 49), data(13, 77), data(20, 3), data(30))
    book.add("ccm-seal %s %s %s %s %s" % (k.upper(), n.upper(), a.upper(), m.upper(), "FF" * 38), "0 " + h(s))
    book.add("ccm-open %s %s %s %s %s" % (k.upper(), n.title(), a.upper(), h(s).upper(), "Ff" * 30), "0 " + m)


def main(root, folder):
    """Write the lines of this part."""
    book = Book("Lines for CCM")
    book.remark("Packages: python3-cryptography-vectors 38.0.4-1 and libcrypto++-utils 8.7.0 (Debian 12), with "
                "Python's package cryptography, whose AESCCM is libcrypto's. No answer comes from a program of this project: all are "
                "copied from the named source, or made by AESCCM with a tag of 8 bytes, or follow from E14 "
                "and docs/CONSOLE.md. Beside 24 the script has AESCCM open the same message and stops unless it refuses.")
    book.remark("The lines hold nothing from one to the next and may stand in any order.")
    standard(book, root)
    lengths(book)
    damaged(book)
    refusals(book)
    bad_lines(book)
    book.write(folder)


def asked_and_due(found):
    """The second program's lines for records, and what it must answer."""
    for k, n, a, m, s, tag in found:
        texts = "%d %s %s %s " % (tag, h(k), h(n), h(a))
        if m is not None:
            yield "seal " + texts + h(m), h(s)
        yield "open " + texts + h(s), "!" if m is None else h(m)


def second(root, program):
    """Compare the second program with every record, and say how many there were."""
    found = {name: others(root) if name == "crypto++" else records(root, name) for name in SECOND_FILES + ["crypto++"]}
    lines, answers = zip(*(pair for name in found for pair in asked_and_due(found[name])))
    done = subprocess.run([program, "ccm"], input="\n".join(lines) + "\n", capture_output=True, text=True, check=True)
    given = done.stdout.splitlines()
    wrong = [line for line, answer, due in zip(lines, given, answers) if answer != due]
    if wrong or len(given) != len(answers):
        sys.exit("ccm: %d answers differ, the first to %s" % (len(wrong), wrong[:1]))
    counts = {name: len(found[name]) for name in found}
    print("ccm: %d records, %d answers agree: %s" % (sum(counts.values()), len(answers), counts))


if __name__ == "__main__":
    if sys.argv[2] == "--second":
        second(sys.argv[1], sys.argv[3])
    else:
        main(sys.argv[1], sys.argv[2])
