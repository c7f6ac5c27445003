"""Lines for the check, whole and running: python3 check.py ROOT FOLDER (ROOT: the unpacked packages)."""

import subprocess
import sys

from lines import Book, counting, h
from sources import cavs, rfc4493_cases

WRONG_KEY_SIZES = (0, 15, 17, 23, 25, 31, 33, 64)
ZERO_CHECK = "0 " + "0" * 32
KEY = counting(16)
# The lengths of the requirements, which no packaged list has.
LENGTHS = (0, 1, 15, 16, 17, 31, 32, 33, 480, 496, 512)
KEY_SIZES = (16, 24, 32)


def pieces(message, size):
    """The message cut into parts of one size, the last perhaps shorter."""
    return [message[at:at + size] for at in range(0, len(message), size)]


def with_empties(parts):
    """The parts with an empty one before each and two behind the last."""
    return [part for piece in parts for part in (b"", piece)] + [b"", b""]


def cuttings(message):
    """Many ways to cut a message: whole, single bytes, even parts, empty parts, two parts, growing parts."""
    found = [[message], pieces(message, 1), with_empties(pieces(message, 1))]
    found += [pieces(message, size) for size in (7, 15, 16, 17, 32)]
    found += [with_empties([message]), with_empties(pieces(message, 16)), with_empties(pieces(message, 5))]
    found += [[message[:at], message[at:]] for at in (1, 15, 16, 17, 31, 32, 33, 48, 63) if at < len(message)]
    found.append([message[n * (n + 1) // 2:(n + 1) * (n + 2) // 2] for n in range(11)])
    return found


def whole(book, key, message, check):
    """One whole check."""
    book.add("check %s %s" % (h(key), h(message)), "0 " + h(check))


def start(book, key):
    """A running check begun with a good key."""
    book.add("check-start " + h(key), "0")


def feed(book, parts):
    """Parts fed one after the other."""
    for part in parts:
        book.add("check-feed " + h(part), "0")


def close(book, check):
    """A running check closed."""
    book.add("check-close", "0 " + h(check))


def running(book, key, parts, check):
    """A running check from start to close."""
    start(book, key)
    feed(book, parts)
    close(book, check)


def examples(root, size):
    """SP 800-38B appendix D for one key size: (key, message, check)."""
    records = cavs(root, "CMAC/nist-800-38b-aes%d.txt" % size)
    return [tuple(bytes.fromhex(record[x]) for x in ("KEY", "MESSAGE", "OUTPUT")) for _, record in records]


def before_any_start(book):
    """The zero record: feeding is accepted and the check is zeros."""
    book.group("before any start: the zero record, fed and closed",
               "docs/CONSOLE.md (zero record) with reading 10 (its check is zeros)")
    book.add("check-close", ZERO_CHECK)
    book.add("check-feed 00", "0")
    book.add("check-feed -", "0")
    book.add("check-close", ZERO_CHECK)
    feed(book, [counting(40)])
    book.add("check-close", ZERO_CHECK)


def standard(book, root):
    """SP 800-38B whole, then each message in many cuttings, then all four checks from one record."""
    for size in (128, 192, 256):
        name = "SP 800-38B appendix D, AES-%d: python3-cryptography-vectors, CMAC/nist-800-38b-aes%d.txt" % (size, size)
        book.group("`check`: messages of 0, 16, 40 and 64 bytes", name)
        for key, message, check in examples(root, size):
            whole(book, key, message, check)
        book.group("the same running, each message in many cuttings (whole, single bytes, 5, 7, 15, 16, 17, 32 bytes, "
                   "two parts, growing parts, with and without empty feeds)", name)
        for key, message, check in examples(root, size):
            for parts in cuttings(message):
                running(book, key, parts, check)
        book.group("closing between feeds and twice at the end: each message begins with the one before it, so one "
                   "record gives all four checks", name)
        prefixes(book, examples(root, size), 64)
        prefixes(book, examples(root, size), 1)
        prefixes(book, examples(root, size), 9)


def prefixes(book, four, size):
    """One record fed up to the longest message, closed at the length of each."""
    start(book, four[0][0])
    fed = b""
    for _, message, check in four:
        if not message.startswith(fed):
            raise ValueError("the messages do not continue each other")
        feed(book, pieces(message[len(fed):], size))
        fed = message
        close(book, check)
        feed(book, [b""])
        close(book, check)


def held_record(book, root):
    """What changes the record that is held, and what does not."""
    name = "SP 800-38B appendix D, same files; docs/CONSOLE.md"
    small, large = examples(root, 128), examples(root, 256)
    book.group("a start drops what was fed before", name)
    start(book, small[3][0])
    feed(book, [small[3][1][:20]])
    running(book, large[2][0], [large[2][1]], large[2][2])
    start(book, small[0][0])
    close(book, small[0][2])
    book.group("whole checks, refused whole checks and bad lines between feeds change nothing held", name)
    for key, message, check in small + large:
        start(book, key)
        for at, part in enumerate(pieces(message, 13)):
            feed(book, [part])
            between(book, at, small)
        close(book, check)
        book.bad("check-close ")
        close(book, check)


def between(book, at, cases):
    """A line that leaves the held record alone; another one each time."""
    key, message, check = cases[at % 4]
    whole(book, key, message, check)
    book.add("check %s 00" % h(counting(15)), "1 " + "0" * 32)
    book.bad(("check-start", "check-start 0", "check-feed", "check-feed 000", "check-feed 0g", "check-feed 00 00")[at])


def reference(book, root):
    """Outputs of RFC 4493's reference program: the first case of each message length from 0 to 80, and some longer."""
    chosen = {}
    for key, message, check in rfc4493_cases(root):
        chosen.setdefault(len(message), (key, message, check))
    cases = [chosen[size] for size in list(range(81)) + [111, 112, 113, 127, 128, 129, 239, 240, 241, 255]]
    name = ("golang-github-jacobsa-crypto-dev, testing/cases/cmac.gob (made by the reference program of RFC 4493, "
            "AES-128; the first case of each length)")
    book.group("`check`: messages of every length from 0 to 80 bytes, and 111-113, 127-129, 239-241, 255", name)
    for key, message, check in cases:
        whole(book, key, message, check)
    book.group("the same running, in one part, in parts of 11 bytes, and of 16 bytes with empty ones between", name)
    for key, message, check in cases:
        running(book, key, [message], check)
        running(book, key, pieces(message, 11), check)
        running(book, key, with_empties(pieces(message, 16)), check)


def refusals(book, root):
    """Keys of a wrong size; a refused start leaves the zero record."""
    key, message, check = examples(root, 128)[3]
    book.group("`check` with keys of 0, 15, 17, 23, 25, 31, 33 and 64 bytes: 1 and zeros", "refusal 1")
    for size in WRONG_KEY_SIZES:
        for length in (0, 16, 17):
            book.add("check %s %s" % (h(counting(size)), h(counting(length))), "1 " + "0" * 32)
    book.group("`check-start` with the same keys: 1", "refusal 1")
    for size in WRONG_KEY_SIZES:
        book.add("check-start " + h(counting(size)), "1")
    book.group("after a refused start, one in the middle of feeding too: the zero record, whose check is zeros",
               "docs/CONSOLE.md with reading 10")
    for size in WRONG_KEY_SIZES:
        start(book, key)
        feed(book, [message[:30]])
        book.add("check-start " + h(counting(size)), "1")
        book.add("check-close", ZERO_CHECK)
        feed(book, [message[30:]])
        book.add("check-close", ZERO_CHECK)
    book.group("a good start after that", "SP 800-38B appendix D, same files")
    running(book, key, [message], check)


def bad_lines(book, root):
    """Lines outside the form."""
    key = h(KEY)
    book.group("bad lines for `check`, `check-start`, `check-feed` and `check-close`", "docs/CONSOLE.md")
    for text in ("check", "check " + key, "check %s 00 00" % key, "check %s 0" % key, "check %s0 00" % key,
                 "check %s 0x" % key, "check %s  00" % key, "check %s 00 " % key, " check %s 00" % key,
                 "check %s 00\r" % key, "Check %s 00" % key, "check- %s" % key, "check-start", "check-start ",
                 "check-start %s %s" % (key, key), "check-start %s0" % key, "check-start %sgg" % key[2:],
                 "check-start  " + key, "check-start %s " % key, "check-start\t" + key, "check-feed", "check-feed ",
                 "check-feed 0", "check-feed 000", "check-feed 0g", "check-feed 00 00", "check-feed 00 -",
                 "check-feed  00", "check-feed 00 ", "check-feed --", "check-feed 00\r", "check-close ", " check-close",
                 "check-close 00", "check-close -", "check-close\r", "Check-close", "check-closed", "check_close",
                 "check-clos", "check-feeds 00", "check start " + key):
        book.bad(text)
    book.group("a line of 65,537 bytes is bad and changes nothing held",
               "docs/CONSOLE.md; SP 800-38B appendix D, same files")
    good, message, check = examples(root, 192)[2]
    start(book, good)
    feed(book, [message[:17]])
    book.bad("check-feed " + "00" * 32763)
    feed(book, [message[17:]])
    close(book, check)


def by_openssl(key, message):
    """The check, from OpenSSL's own CMAC."""
    words = ["openssl", "mac", "-macopt", "cipher:AES-%d-CBC" % (8 * len(key)), "-macopt", "hexkey:" + key.hex(), "-in", "-", "CMAC"]
    return bytes.fromhex(subprocess.run(words, input=message, capture_output=True, check=True).stdout.decode().strip())


def few_cuttings(message):
    """A message in one part, in pieces with an empty part behind each, in sevens and, where it is short, in single bytes."""
    found = [[message], [part for piece in pieces(message, 16) for part in (piece, b"")], pieces(message, 7)]
    return found + [[part for piece in pieces(message, 1) for part in (piece, b"")]] if len(message) <= 33 else found


def lengths(book):
    """The lengths of the requirements, closed twice."""
    book.group("messages of 0, 1, 15, 16, 17, 31, 32, 33, 480, 496 and 512 bytes under keys of the three sizes, whole and in three or four "
               "cuttings each, closed twice", "OpenSSL's CMAC")
    for size in KEY_SIZES:
        for length in LENGTHS:
            key, message = counting(size), bytes((7 * i + i // 256) % 256 for i in range(length))
            check = by_openssl(key, message)
            whole(book, key, message, check)
            for parts in few_cuttings(message):
                running(book, key, parts, check)
                close(book, check)


def main(root, folder):
    """Write the lines of this part."""
    book = Book("Lines for the check, whole and running")
    book.remark("Packages: python3-cryptography-vectors 38.0.4-1 and golang-github-jacobsa-crypto-dev 0.0~git20190317.9f44e2d+dfsg1-4; the "
                "command `openssl` of version 3 (Debian 12). No answer comes from a program of this project: all are copied from the named "
                "source, made by OpenSSL, or follow from the rules of docs/REQUIREMENTS.md and docs/CONSOLE.md.")
    book.remark("python3-cryptography-vectors holds none of NIST's CAVS files for CMAC, only the examples of SP 800-38B. Message lengths that "
                "these lack come from the list made by RFC 4493's reference program, which is published but not a standard's own and has "
                "AES-128 only, and from OpenSSL.")
    book.remark("The lines are one sequence: a running check goes over many lines, so no line may be left out alone.")
    before_any_start(book)
    standard(book, root)
    held_record(book, root)
    reference(book, root)
    refusals(book, root)
    bad_lines(book, root)
    lengths(book)
    book.write(folder)


if __name__ == "__main__":
    main(sys.argv[1], sys.argv[2])
