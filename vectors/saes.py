"""Lines for Simplified AES: python3 saes.py FOLDER. It needs no package."""

import sys

from lines import Book

SOURCE = "source document 001, section 1"
TAUGHT = "an example used in teaching; its way back was done by hand"
FORM = "docs/CONSOLE.md"

# key, block, the states of its encryption, and those of the way back
CASES = (
    ("1f56", "2726", "3870 8da9 2105", "620e 93e1 2726", SOURCE),
    ("4af5", "d728", "9ddd 2b1b 24ec", "a343 f633 d728", TAUGHT),
)

BAD = (
    "", "1f56", "1f56 2726 -", "1f 2726", "1f56 27", "1f5 2726", "1f56 272", "1f5600 2726", "1f56 272600", "- 2726", "1f56 -",
    "1f56  2726", "1f56 2726 ", "1g56 2726", "0x1f56 2726", "8022 10022",
)


def cases(book):
    """The worked examples, both ways."""
    for key, block, there, back, source in CASES:
        book.group("key %s, block %s, and back" % (key, block), source)
        book.add("saes-encrypt %s %s" % (key, block), "0 " + there)
        book.add("saes-decrypt %s %s" % (key, there.split()[2]), "0 " + back)
    book.group("digits of either case", SOURCE + "; " + FORM)
    book.add("saes-encrypt 1F56 2726", "0 3870 8da9 2105")
    book.add("saes-decrypt 1f56 2105", "0 620e 93e1 2726")


def bad_lines(book):
    """What is no line of these calls."""
    book.group("words that are not two, or not of two bytes each", FORM)
    for word in ("saes-encrypt", "saes-decrypt"):
        for rest in BAD:
            book.bad((word + " " + rest) if rest else word)
    book.group("names that there are not", FORM)
    for word in ("saes", "SAES-ENCRYPT", "saes-Encrypt", "saes_encrypt"):
        book.bad(word + " 1f56 2726")


def main(folder):
    """Write the lines of this part."""
    book = Book("Lines for Simplified AES")
    book.how("python3 saes.py FOLDER", "which needs no package")
    book.remark("No answer comes from a program of this project.")
    cases(book)
    bad_lines(book)
    book.write(folder)


if __name__ == "__main__":
    main(sys.argv[1])
