"""Lines for product, schedule, encrypt and decrypt: python3 blocks.py ROOT FOLDER (ROOT: the unpacked packages)."""

import sys

from lines import Book, counting, h
from sources import cavs, fips197_blocks, fips197_schedules

WRONG_KEY_SIZES = (0, 15, 17, 23, 25, 31, 33, 64)
FIPS197_42 = ("57 83 c1", "57 13 fe", "57 02 ae", "57 04 47", "57 08 8e", "57 10 07")
HAND_CASES = ("57 13 fe", "57 10 07", "6b 02 d6", "00 00 00", "01 00 00", "57 00 00", "80 00 00", "ff 00 00")

# Source document 002, section 2.3: tables 8, 9, 10 and 16.
DOC_002_PLAIN = "50414c4553545241204e4f204c4e4343"
DOC_002_CIPHER = "e6234e3a1695fb78847d99d13bcb5d94"
DOC_002_WORDS = """
424f4c53 49535441 20444f20 434e5071 6c1cef49 254fbb08 050bf428 4645a459 00552413 251a9f1b 20116b33 6654cf6a
24df2620 01c5b93b 21d4d208 47801d62 e17b8c80 e0be35bb c16ae7b3 86eafad1 7656b2c4 96e8877f 578260cc d1689a1d
13ee16fa 85069185 d284f149 03ec6b54 9d913681 1897a704 ca13564d c9ff3d19 0bb6e25c 13214558 d9321315 10cd2e0c
ad871c96 bea659ce 67944adb 775964d7 50c41263 ee624bad 89f60176 feaf65a1
"""

# Source document 001, section 2: table 23, with words 32 and 37 from table 24 (table 23 has them wrong).
DOC_001_PLAIN = "00000000000000000000000000002726"
DOC_001_CIPHER = "26bc0ccce44c0066de46ef3c44ebc555"
DOC_001_WORDS = """
00000000 00000000 00000000 00001f56 62c0b163 62c0b163 62c0b163 62c0ae35 da2427c9 b8e496aa da2427c9 b8e489fc
b78397a5 0f67010f d54326c6 6da7af3a e3fa1799 ec9d1696 39de3050 54799f6a 452115b9 a9bc032f 9062337f c41bac15
cab04ca5 630c4f8a f36e7cf5 3775d0e0 17c0ad3f 74cce2b5 87a29e40 b0d74ea0 99ef4dd8 ed23af6d 6a81312d da567f8d
333d108f de1ebfe2 b49f8ecf 6ec9f142 d89c3c10 068283f2 b21d0d3d dcd4fc7f
"""

KEY = "000102030405060708090a0b0c0d0e0f"
BLOCK = "00112233445566778899aabbccddeeff"
SEALED = "69c4e0d86a7b0430d8cdb78070b4c55a"


def products(book):
    """Published products, and the same with the factors changed over."""
    book.group("`product`: worked example of the byte product, its doubling chain, and 01 as the one",
               "FIPS 197 section 4.2")
    for a, b, product in (row.split() for row in FIPS197_42):
        book.add("product %s %s" % (a, b), "0 " + product)
    for a in ("00", "01", "57", "80", "ff"):
        book.add("product %s 01" % a, "0 " + a)
    book.group("`product`: hand cases", "R46 (hand cases)")
    for a, b, product in (row.split() for row in HAND_CASES):
        book.add("product %s %s" % (a, b), "0 " + product)
    book.group("`product`: the products above with their factors changed over",
               "FIPS 197 section 4.2 (the bytes are a field, so the order of factors is free)")
    for a, b, product in (row.split() for row in FIPS197_42 + HAND_CASES[2:]):
        book.add("product %s %s" % (b, a), "0 " + product)


def schedule(book, key, words):
    """One schedule line: the words, then zeros up to 60 words."""
    book.add("schedule " + key, "0 " + words + "0" * (480 - len(words)))


def both_ways(book, key, plain, cipher):
    """One block encrypted, and back."""
    book.add("encrypt %s %s" % (key, plain), "0 " + cipher)
    book.add("decrypt %s %s" % (key, cipher), "0 " + plain)


def standard(book, root):
    """FIPS 197 appendices A, B and C."""
    book.group("`schedule`: key expansions of the three sizes, all words",
               "FIPS 197 A.1, A.2, A.3, as quoted in golang-1.19-src, crypto/aes/aes_test.go")
    for _, key, words in fips197_schedules(root):
        schedule(book, h(key), h(words))
    book.group("`encrypt`, `decrypt`: cipher example and example vectors",
               "FIPS 197 B, C.1, C.2, C.3, as quoted in golang-1.19-src, crypto/aes/aes_test.go")
    for _, key, plain, cipher in fips197_blocks(root):
        both_ways(book, h(key), h(plain), h(cipher))


def documents(book):
    """The AES-128 runs of the source documents."""
    book.group("`schedule`, `encrypt`, `decrypt`: the worked run of source document 002",
               "source document 002, tables 8, 9, 10, 16; agrees with the standard in every word")
    words = DOC_002_WORDS.replace(" ", "").replace("\n", "")
    schedule(book, words[:32], words)
    both_ways(book, words[:32], DOC_002_PLAIN, DOC_002_CIPHER)
    book.group("`schedule`, `encrypt`, `decrypt`: the worked run of source document 001",
               "source document 001, tables 23 and 24; words 32 and 37 from table 24")
    words = DOC_001_WORDS.replace(" ", "").replace("\n", "")
    schedule(book, words[:32], words)
    both_ways(book, words[:32], DOC_001_PLAIN, DOC_001_CIPHER)


def known_answers(book, root):
    """NIST's known answers for ECB: one block a record."""
    for kind in ("GFSbox", "KeySbox", "VarTxt", "VarKey"):
        for size in (128, 192, 256):
            name = "ECB%s%d.rsp" % (kind, size)
            book.group("`encrypt`, `decrypt`: NIST known answers, both sections",
                       "python3-cryptography-vectors, ciphers/AES/ECB/" + name)
            for section, record in cavs(root, "ciphers/AES/ECB/" + name):
                key, plain, cipher = record["KEY"], record["PLAINTEXT"], record["CIPHERTEXT"]
                if section == "ENCRYPT":
                    book.add("encrypt %s %s" % (key, plain), "0 " + cipher)
                else:
                    book.add("decrypt %s %s" % (key, cipher), "0 " + plain)


def refusals(book):
    """Keys of a wrong size: 1, and zeros where the answer has room."""
    book.group("keys of 0, 15, 17, 23, 25, 31, 33 and 64 bytes: 1 and zeros", "refusal 1")
    for size in WRONG_KEY_SIZES:
        key = h(counting(size))
        book.add("schedule " + key, "1 " + "0" * 480)
        book.add("encrypt %s %s" % (key, BLOCK), "1 " + "0" * 32)
        book.add("decrypt %s %s" % (key, SEALED), "1 " + "0" * 32)


def either_case(book):
    """Hex digits of either case on input, lower case in the answer."""
    book.group("upper and mixed case on input, lower case in the answer", "docs/CONSOLE.md; vectors of FIPS 197 4.2 and C.1")
    book.add("product 57 13", "0 fe")
    book.add("product 6B 02", "0 d6")
    book.add("product 6b 02", "0 d6")
    book.add("encrypt %s %s" % (KEY.upper(), BLOCK.upper()), "0 " + SEALED)
    book.add("encrypt %s %s" % (KEY, BLOCK.upper()), "0 " + SEALED)
    book.add("decrypt %s %s" % (KEY.replace("a", "A").replace("c", "C"), SEALED.title()), "0 " + BLOCK)


def bad_words(book):
    """First words that are none, and wrong numbers of words."""
    book.group("bad lines: unknown first word", "docs/CONSOLE.md")
    for word in ("encrpyt", "Encrypt", "ENCRYPT", "encrypt2", "encryp", "help", "-", "?", "0", "#"):
        book.bad("%s %s %s" % (word, KEY, BLOCK))
    book.bad("help")
    book.bad("?")
    book.group("bad lines: a wrong number of words", "docs/CONSOLE.md")
    for line in ("product", "product 57", "product 57 13 00", "schedule", "schedule %s %s" % (KEY, KEY),
                 "schedule %s -" % KEY, "encrypt", "encrypt " + KEY, "encrypt %s %s %s" % (KEY, BLOCK, BLOCK),
                 "encrypt %s %s -" % (KEY, BLOCK), "decrypt", "decrypt " + KEY,
                 "decrypt %s %s %s" % (KEY, SEALED, SEALED)):
        book.bad(line)


def bad_hex(book):
    """Odd numbers of digits, and characters that are no digits."""
    book.group("bad lines: an odd number of digits", "docs/CONSOLE.md")
    for line in ("product 5 13", "product 57 1", "product 057 13", "schedule 0", "schedule " + KEY[1:],
                 "schedule %s0" % KEY, "encrypt %s %s" % (KEY[1:], BLOCK), "encrypt %s %s" % (KEY, BLOCK[1:]),
                 "decrypt %s0 %s" % (KEY, SEALED), "decrypt %s %s0" % (KEY, SEALED)):
        book.bad(line)
    book.group("bad lines: a character that is not a hex digit", "docs/CONSOLE.md")
    for line in ("product 5g 13", "product 57 G3", "product 0x57 0x13", "product +7 13", "product 57 -3",
                 "product 57 :0", "product 57 /0", "product 57 @0", "product 57 `0", "schedule " + KEY[:-1] + "g",
                 "schedule --", "schedule -%s" % KEY, "schedule %s-" % KEY, "encrypt %s z%s" % (KEY, BLOCK[1:]),
                 "encrypt %s %s" % (KEY[:-2] + "0.", BLOCK), "decrypt %s %s" % (KEY, SEALED[:-1] + "_")):
        book.bad(line)


def bad_sizes(book):
    """Blocks that are not 16 bytes and factors that are not one."""
    book.group("bad lines: a block that is not 16 bytes, under a good key and under a key of wrong size", "docs/CONSOLE.md")
    for key in (KEY, "-", KEY[2:]):
        for size in (0, 1, 15, 17, 32):
            book.bad("encrypt %s %s" % (key, h(counting(size))))
            book.bad("decrypt %s %s" % (key, h(counting(size))))
    book.group("bad lines: a factor that is not one byte", "docs/CONSOLE.md (the line's form is two bytes)")
    for line in ("product - 13", "product 57 -", "product - -", "product 5713 02", "product 57 0213"):
        book.bad(line)


def bad_spaces(book):
    """Spaces too many, and bytes that are neither words nor single spaces."""
    book.group("bad lines: two spaces, a space in front or behind, the empty line, spaces alone", "docs/CONSOLE.md")
    for line in ("product  57 13", "product 57  13", " product 57 13", "product 57 13 ", "product 57 13  ",
                 "schedule %s " % KEY, " schedule " + KEY, "schedule  " + KEY, "schedule ",
                 "encrypt %s  %s" % (KEY, BLOCK), "encrypt %s %s " % (KEY, BLOCK), "encrypt %s " % KEY,
                 " decrypt %s %s" % (KEY, SEALED), "", " ", "  ", ""):
        book.bad(line)
    book.group("bad lines: any other byte (carriage return, tab, vertical tab, NUL, 7f, 80, a0, ff, a UTF-8 letter)",
               "docs/CONSOLE.md")
    for byte in ("\r", "\t", "\v", "\0", "\x7f", "\x80", "\xa0", "\xff", "\xc3\xa9"):
        book.bad("product 57 13" + byte)
        book.bad(byte + "product 57 13")
        book.bad("product 57%s13" % byte)
    for line in ("\r", "\0", "\t"):
        book.bad(line)


def bad_numbers(book):
    """Numbers that do not fit, or are not decimal digits alone; good or bad in the rest, the answer is one."""
    book.group("bad lines: a number that does not fit 32 bits (`write`) or 64 bits (`read-turn`)", "docs/CONSOLE.md")
    write = "write %s %s %%s %%s %%s 1 %s - -" % (KEY, KEY, "00" * 16)
    for big in ("4294967296", "18446744073709551616", "99999999999999999999999999", "0000004294967296"):
        book.bad(write % (big, "1", "0"))
        book.bad(write % ("0", big, "0"))
        book.bad(write % ("0", "1", big))
    for big in ("18446744073709551616", "36893488147419103233", "100000000000000000000", "00018446744073709551616"):
        book.bad("read-turn %s - -" % big)
    book.group("bad lines: a number that is not decimal digits alone", "docs/CONSOLE.md")
    for word in ("-", "+1", "-1", "0x1", "1a", "a", "1.0", "1,0", "1_0"):
        book.bad(write % (word, "1", "0"))
        book.bad("read-turn %s - -" % word)


def last_lines(book):
    """After all bad lines the console still answers, and a last line needs no line feed."""
    book.group("the console goes on after bad lines; the last line has no line feed",
               "FIPS 197 4.2 and C.1; docs/CONSOLE.md")
    both_ways(book, KEY, BLOCK, SEALED)
    book.add("product 57 83", "0 c1")


def main(root, folder):
    """Write the lines of this part."""
    book = Book("Lines for product, schedule, encrypt and decrypt")
    book.remark("Packages: golang-1.19-src 1.19.8-2 and python3-cryptography-vectors 38.0.4-1 (Debian 12). No answer "
                "comes from running a cipher: all are copied from the named source or follow from the rules of "
                "docs/REQUIREMENTS.md and docs/CONSOLE.md.")
    book.remark("Source document 002: the run agrees with the standard, all 44 words (table 10), plaintext and "
                "ciphertext. Source document 001: plaintext, key and ciphertext of table 23 agree. Its round keys "
                "agree except word 32 (table 23: 9fef4dd8; table 24: 99ef4dd8, which agrees) and word 37 (table 23: "
                "de1e1be2; table 24: de1ebfe2, which agrees), so these two are taken from table 24. The blocks were "
                "judged with `openssl enc -aes-128-ecb -nopad`, the words by the recurrence of FIPS 197 5.2 with the "
                "standard's S-box as quoted in golang-1.19-src, crypto/aes/const.go. Table 22 of 001 is illegible. "
                "The states between the rounds were not judged, in either document. The S-AES run of 001 and the single "
                "key word of 002's table 7 have no line here.")
    book.remark("The lines with `write` and `read-turn` are answered `?` also by a console that does not know these "
                "words yet. The file holds bytes that are not text (NUL, 80, ff and others), and its last line has no "
                "line feed: compare bytes.")
    products(book)
    standard(book, root)
    documents(book)
    known_answers(book, root)
    refusals(book)
    either_case(book)
    bad_words(book)
    bad_hex(book)
    bad_sizes(book)
    bad_spaces(book)
    bad_numbers(book)
    last_lines(book)
    book.write(folder, open_end=True)


if __name__ == "__main__":
    main(sys.argv[1], sys.argv[2])
