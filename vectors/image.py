"""Lines for release images: the writer, the reader, receivers and views: python3 image.py SAMPLES FOLDER.

Every cipher byte comes from OpenSSL. SAMPLES is the folder of the samples, whose images the views are shown of."""

import os
import subprocess
import sys
from functools import lru_cache

from lines import Book, counting, filler, h, laid_over

WRONG_KEY_SIZES = (0, 15, 17, 23, 25, 31, 33, 64)
ORDERS = "R37 (orders)"
OPENSSL = "OpenSSL; R26 to R36"
STATE = "docs/CONSOLE.md (zero state) with reading 10"
LARGEST = 2**32 - 1
ZEROS = bytes(16)
CHAIN_OPENSSL = "OpenSSL; E10"
CHAIN_RULES = "E10"
CHAIN_ORDERS = "R37 (orders); E10"
ODD_MARKS = (1, 258, 65535)
RECEIVER_OPENSSL = "OpenSSL; E11"
RECEIVER_RULES = "E11"
RECEIVED = 0x0A0B0C0D
BLOCK, CHECK = 512, 16
VIEW_CALLS = ("view-block", "view-check")
LARGEST_PLACE = 2 ** 64 - 1


def key(size, start):
    """A key that is no other one's."""
    return bytes((start + 11 * i) & 0xFF for i in range(size))


EKEY, CKEY = key(16, 0x21), key(16, 0x84)
# What `write` is given for the previous check where nothing depends on it.
UNUSED = key(16, 0xC7)


def openssl(words, data):
    """What OpenSSL makes of the data."""
    return subprocess.run(["openssl"] + words, input=data, capture_output=True, check=True).stdout


def enc(mode, k, data, more):
    """One of OpenSSL's modes on whole pieces."""
    name = "-aes-%d-%s" % (8 * len(k), mode)
    return openssl(["enc", name, "-nopad", "-K", k.hex()] + more, data)


def iv_of(k, head):
    """The IV of a block, as a word of hex: its header, encrypted."""
    return enc("ecb", k, head, []).hex()


@lru_cache(maxsize=None)
def check_of(k, message):
    """The check, from OpenSSL's own CMAC."""
    words = ["mac", "-macopt", "cipher:AES-%d-CBC" % (8 * len(k)), "-macopt", "hexkey:" + k.hex(), "-in", "-", "CMAC"]
    return bytes.fromhex(openssl(words, message).decode().strip())


def head_of(number, count, release, length, mark=0):
    """The first 16 bytes of a block, right or wrong."""
    fields = ((number, 4), (count, 4), (release, 4), (length, 2), (mark, 2))
    return b"".join(value.to_bytes(size, "big") for value, size in fields)


def filled(payload):
    """A payload with zeros up to 480 bytes."""
    return payload + bytes(480 - len(payload))


@lru_cache(maxsize=None)
def sealed(head, body, ekey=EKEY, ckey=CKEY, tail=b""):
    """The block of any header over any 480 bytes, and what its check covers behind bytes 0 to 495."""
    front = head + enc("cbc", ekey, body, ["-iv", iv_of(ekey, head)])
    return front + check_of(ckey, front + tail)


def opened(block, ekey):
    """The 480 bytes of a block under an encryption key."""
    return enc("cbc", ekey, block[16:496], ["-d", "-iv", iv_of(ekey, block[:16])])


def data(size, start=0):
    """A payload: every byte of it other than zero, so that fill and payload are told apart."""
    return bytes(1 + (start * 29 + 5 * i + i // 251) % 255 for i in range(size))


def block(number, count, release, payload, ekey=EKEY, ckey=CKEY):
    """A right block."""
    return sealed(head_of(number, count, release, len(payload)), filled(payload), ekey, ckey)


class Image:
    """Payloads of 480 bytes each and a last one of the length given, with their blocks of edition 1."""

    def __init__(self, count, release, last, ekey=EKEY, ckey=CKEY):
        sizes = [480] * (count - 1) + [last]
        self.payloads = [data(size, number + release) for number, size in enumerate(sizes)]
        self.blocks = [block(n, count, release, p, ekey, ckey) for n, p in enumerate(self.payloads)]


# Places at which blocks are damaged: a byte of each field of the header, and one in each of the other 31 pieces; and fewer of them.
PLACES = [3, 6, 11, 12, 13, 14, 15] + [16 * piece + 5 * piece % 16 for piece in range(1, 32)]
FEW_PLACES = PLACES[:7] + PLACES[7::6] + PLACES[-1:]


def spoiled(b, place, mask):
    """A block with one byte changed."""
    return b[:place] + bytes([b[place] ^ mask]) + b[place + 1:]


def start(book, ekey=EKEY, ckey=CKEY, number=0):
    """A reader started, or refused."""
    book.add("read-start %s %s" % (h(ekey), h(ckey)), str(number))


def complete(book, number):
    """Whether the last block has been accepted."""
    book.add("read-complete", str(number))


def turn(book, asked, blocks, out, taken=(), stop="- - -", number=0):
    """A turn: the payloads that it accepts, in order, and how it stops."""
    lent = b"".join(blocks)
    shown = h(laid_over(b"".join(filled(p) for p in taken), out))
    total = sum(len(p) for p in taken)
    book.add("read-turn %s %s %s" % (asked, h(lent), h(out)), "%d %d %d %s %s" % (number, len(taken), total, stop, shown))


def refused(book, b, reason, value="-"):
    """One block offered alone and refused, the output as it was."""
    turn(book, 1, [b], filler(480), stop="0 %d %s" % (reason, value))


def taken(book, image, number):
    """One block offered alone and accepted."""
    turn(book, 1, [image.blocks[number]], filler(480), [image.payloads[number]])


def write_line(ekey, ckey, number, count, release, payload, out, edition=1, previous=UNUSED):
    """One line of the writer."""
    which = "%s %s %s %s" % (number, count, release, edition)
    return "write %s %s %s %s %s %s" % (h(ekey), h(ckey), which, h(previous), h(payload), h(out))


def written(book, number, count, release, payload, out=filler(512), ekey=EKEY, ckey=CKEY):
    """A block written over the front of the output."""
    result = block(number, count, release, payload, ekey, ckey)
    book.add(write_line(ekey, ckey, number, count, release, payload, out), "0 " + h(laid_over(result, out)))


def unwritten(book, answer, number, count, payload, out=filler(512), ekey=EKEY, ckey=CKEY, edition=1):
    """A refused block: the output stays."""
    book.add(write_line(ekey, ckey, number, count, 77, payload, out, edition), "%d %s" % (answer, h(out)))


def nothing_started(book):
    """The zero state: not complete, and every block is refused with 14."""
    one = block(0, 1, 5, data(3))
    complete(book, 17)
    turn(book, 1, [], b"")
    turn(book, 128, [], filler(9))
    refused(book, one, 14)
    refused(book, bytes(512), 14)
    refused(book, bytes(496) + check_of(bytes(16), bytes(496)), 14)
    refused(book, one[:496] + bytes(16), 14)
    turn(book, 2, [one, one], filler(960), stop="0 14 -")
    turn(book, 0, [one], filler(480), number=5)
    turn(book, 1, [one[:511]], filler(480), number=6)
    turn(book, 1, [one], filler(479), number=4)
    complete(book, 17)


def before_any_start(book):
    """What the reader is before its first start."""
    book.group("before any start: the zero state, which accepts nothing", STATE)
    nothing_started(book)


def writer_sizes(book):
    """Lengths and outputs that pass."""
    book.group("`write`: lengths of 0, 1, 16, 479 and 480 bytes at count 1, 480 in a first and a middle block, 1, 479 "
               "and 480 in a last one", OPENSSL)
    for size in (0, 1, 16, 479, 480):
        written(book, 0, 1, 9, data(size))
    for number in (0, 1):
        written(book, number, 3, 9, data(480, number))
    for size in (1, 479, 480):
        written(book, 2, 3, 9, data(size, 2))
        written(book, 1, 2, 9, data(size, 1))
    book.group("`write`: a payload of zeros, outputs of 512, 513 and 700 bytes: the bytes past 512 stay", OPENSSL)
    for size in (512, 513, 700):
        written(book, 0, 1, 9, bytes(480), filler(size))
        written(book, 0, 1, 9, data(33), filler(size))
    book.group("`write`: releases of 0, 1, 2^31 and 2^32-1, counts up to 65,535, numbers up to 65,534, leading zeros",
               OPENSSL)
    for release in (0, 1, 2**31, LARGEST):
        written(book, 0, 1, release, data(20))
    for number in (0, 255, 256, 65533):
        written(book, number, 65535, 0x01020304, data(480))
    for size in (1, 480):
        written(book, 65534, 65535, 0x01020304, data(size))
    result = block(1, 2, 3, data(7))
    book.add(write_line(EKEY, CKEY, "0001", "00000000002", "03", data(7), filler(512)), "0 " + h(result))


def writer_keys(book):
    """Every pair of key sizes, equal keys, and what the reader then says."""
    book.group("keys of 16, 24 and 32 bytes in all nine pairs: written, read and complete", OPENSSL)
    for i in (16, 24, 32):
        for j in (16, 24, 32):
            whole_run(book, key(i, i + j), key(j, 3 * i + j))
    book.group("equal keys of the three sizes", OPENSSL)
    for i in (16, 24, 32):
        whole_run(book, key(i, 0x55), key(i, 0x55))


def whole_run(book, ekey, ckey):
    """A block written and read."""
    image = Image(1, 400, 130, ekey, ckey)
    written(book, 0, 1, 400, image.payloads[0], filler(512), ekey, ckey)
    start(book, ekey, ckey)
    taken(book, image, 0)
    complete(book, 0)


def writer_refusals(book):
    """Each refusal of the writer with everything else right."""
    book.group("`write` refused with 1: keys of 0, 15, 17, 23, 25, 31, 33 and 64 bytes in either place",
               "refusal 1")
    for size in WRONG_KEY_SIZES:
        unwritten(book, 1, 0, 1, data(4), ekey=counting(size))
        unwritten(book, 1, 0, 1, data(4), ckey=counting(size))
    book.group("`write` refused with 7: counts of 0, 65,536, 65,537, 131,072 and 2^32-1", "refusal 7")
    for count in (0, 65536, 65537, 131072, LARGEST):
        unwritten(book, 7, 0, count, data(480))
    book.group("`write` refused with 8: numbers not below the count, up to 2^32-1", "refusal 8")
    for number, count in ((1, 1), (2, 1), (2, 2), (3, 2), (65535, 65535), (65536, 65535), (LARGEST, 1), (LARGEST, 65535)):
        unwritten(book, 8, number, count, data(480))
    book.group("`write` refused with 12: lengths wrong for their place", "refusal 12; R47 (hand cases)")
    for number, count, sizes in ((0, 1, (481, 992)), (0, 2, (0, 479, 481)), (1, 2, (0, 481)), (1, 3, (1, 479)), (65534, 65535, (0, 481))):
        for size in sizes:
            unwritten(book, 12, number, count, data(size))
    book.group("`write` refused with 4: outputs of 0, 1, 480, 496 and 511 bytes", "refusal 4")
    for size in (0, 1, 480, 496, 511):
        unwritten(book, 4, 0, 1, data(480), filler(size))
    book.group("`write` refused with 13: editions of 0, 3, 258, 65,537, 65,538 and 2^32-1",
               "E10")
    for edition in (0, 3, 258, 65537, 65538, LARGEST):
        unwritten(book, 13, 1, 2, data(9), edition=edition)


def writer_orders(book):
    """Each of the writer's refusals with the next, and all of them together: the first in its order is given."""
    book.group("order of the writer, 1, 7, 8, 12, 13, 4: each with the next, and all", ORDERS + "; E10")
    order = (1, 7, 8, 12, 13, 4)
    for faults in list(zip(order, order[1:])) + [order]:
        count = 65536 if 7 in faults else 3
        number = 70000 if 8 in faults else 0
        payload = data(481 if 12 in faults else 480)
        out = filler(511 if 4 in faults else 512)
        ekey = counting(17) if 1 in faults else EKEY
        unwritten(book, faults[0], number, count, payload, out, ekey=ekey, edition=3 if 13 in faults else 1)
    book.group("order of the writer: a count of 0, below which no number is", ORDERS)
    unwritten(book, 7, 0, 0, data(480))
    unwritten(book, 7, LARGEST, 0, data(481), b"")
    unwritten(book, 7, LARGEST, LARGEST, data(480))


def start_refusals(book):
    """Refused starts, and the state that they leave."""
    image = Image(2, 31, 40)
    book.group("`read-start` refused with 1: the same wrong keys in either place and in both; complete is 17 then",
               "refusal 1; " + STATE)
    for size in WRONG_KEY_SIZES:
        bad = counting(size)
        for ekey, ckey in ((bad, CKEY), (EKEY, bad), (bad, bad)):
            start(book, ekey, ckey, 1)
            complete(book, 17)
    book.group("after a refused start: the zero state, also in the middle of an image and after a complete one", STATE)
    nothing_started(book)
    start(book)
    taken(book, image, 0)
    start(book, counting(15), CKEY, 1)
    refused(book, image.blocks[1], 14)
    refused(book, image.blocks[1][:496] + bytes(16), 14)
    complete(book, 17)
    start(book)
    turn(book, 2, image.blocks, filler(960), image.payloads)
    complete(book, 0)
    start(book, EKEY, counting(33), 1)
    complete(book, 17)
    refused(book, image.blocks[0], 14)


def whole_images(book):
    """Images read through, and completion asked at every stage."""
    book.group("images of 1 to 4 blocks, block by block, completion asked before and after each", OPENSSL)
    for count, last in ((1, 0), (1, 1), (1, 479), (1, 480), (2, 1), (2, 480), (3, 7), (4, 256)):
        image = Image(count, 100 * count + last, last)
        start(book)
        for number in range(count):
            complete(book, 17)
            taken(book, image, number)
        complete(book, 0)
    book.group("one image of 5 blocks in turns of many kinds: as many asked as lent, fewer, more, none lent", OPENSSL)
    image = Image(5, 2**31 + 1, 59)
    for steps in (((5, 5),), ((5, 1), (4, 2), (2, 128)), ((0, 1), (4, 3), (0, 128), (2, 1), (1, 2), (0, 5))):
        read_through(book, image, steps)


def read_through(book, image, steps):
    """An image read in turns: of each the blocks lent and the number asked, and an output of just the size, or more."""
    start(book)
    at = 0
    for lent, asked in steps:
        k = min(lent, asked)
        out = filler(480 * k + 13 * (at % 3))
        turn(book, asked, image.blocks[at:at + lent], out, image.payloads[at:at + k])
        at += k
        complete(book, 0 if at == len(image.blocks) else 17)


def long_turns(book):
    """Turns of 8 blocks."""
    image = Image(8, 30, 333)
    book.group("turns of 8 blocks: all at once; 3 asked of 8 lent; then a wrong block behind 4 right ones, whose "
               "place in the output stays, and the right one", OPENSSL)
    start(book)
    turn(book, 128, image.blocks, filler(480 * 8), image.payloads)
    complete(book, 0)
    start(book)
    turn(book, 3, image.blocks, filler(1440), image.payloads[:3])
    wrong = image.blocks[3:7] + [spoiled(image.blocks[7], 511, 1)]
    turn(book, 20, wrong, filler(2401), image.payloads[3:7], "4 14 -")
    complete(book, 17)
    taken(book, image, 7)
    complete(book, 0)


def asked_numbers(book):
    """Asked numbers at the bounds, on a fresh reader, and what passes then."""
    image = Image(2, 8, 12)
    book.group("asked numbers of 0, 129, 130, 256, 2^32, 2^32+1, 2^63 and 2^64-1: 5, nothing accepted",
               "refusal 5")
    start(book)
    for asked in (0, 129, 130, 256, 2**32, 2**32 + 1, 2**63, 2**64 - 1):
        turn(book, asked, image.blocks[:1], filler(480), number=5)
        turn(book, asked, [], b"", number=5)
    complete(book, 17)
    book.group("asked numbers of 1, 2, 127 and 128 pass, with leading zeros too", "R47 (hand cases)")
    for asked in (1, 2, 127, 128, "0000000000000000000000000000128"):
        k = min(2, int(asked))
        start(book)
        turn(book, asked, image.blocks, filler(960), image.payloads[:k])
        complete(book, 0 if k == 2 else 17)


def lent_lengths(book):
    """Cut images."""
    image = Image(2, 8, 480)
    both = b"".join(image.blocks)
    book.group("lent lengths that are not a multiple of 512: 6, also where the asked blocks lie inside the whole part; the "
               "right blocks are accepted afterwards", "refusal 6; reading 1")
    start(book)
    for size in (1, 511, 513, 1023):
        turn(book, 1, [both[:size]], filler(480), number=6)
        turn(book, 128, [both[:size]], filler(960), number=6)
    turn(book, 2, [both, b"\0"], filler(960), number=6)
    turn(book, 1, [both[1:]], filler(960), number=6)
    complete(book, 17)
    turn(book, 2, [both], filler(960), image.payloads)
    complete(book, 0)


def output_sizes(book):
    """Outputs against 480k."""
    image = Image(3, 66, 5)
    book.group("outputs one byte shorter than 480k: 4, k being the smaller of lent and asked", "refusal 4; "
               "reading 2")
    start(book)
    for lent, asked, out in ((1, 1, 479), (1, 128, 479), (3, 2, 959), (3, 128, 1439), (3, 1, 0), (2, 3, 480)):
        turn(book, asked, image.blocks[:lent], filler(out), number=4)
    complete(book, 17)
    book.group("outputs of just 480k and longer: the rest stays", OPENSSL)
    for lent, asked, out in ((1, 1, 480), (3, 1, 480), (1, 3, 480), (1, 1, 481), (3, 2, 960), (3, 128, 2000)):
        start(book)
        turn(book, asked, image.blocks[:lent], filler(out), image.payloads[:min(lent, asked)])


def turn_orders(book):
    """Every set of two or more of the turn's refusals, and each with a wrong block, on two readers."""
    image = Image(1, 3, 30)
    book.group("order of a turn, 5, 6, 4: every set of two or more of them, and each before a block that is wrong, on a "
               "fresh reader and on a complete one", ORDERS)
    for first in ((), (image,)):
        start(book)
        for one in first:
            taken(book, one, 0)
        for faults in ((5, 6), (5, 4), (6, 4), (5, 6, 4), (5,), (6,), (4,)):
            b = spoiled(image.blocks[0], 100, 1) if len(faults) == 1 else image.blocks[0]
            lent = [b, b"\1"] if 6 in faults else [b]
            turn(book, 129 if 5 in faults else 1, lent, filler(479 if 4 in faults else 480), number=faults[0])
        complete(book, 0 if first else 17)


def nothing_lent(book):
    """A turn with no block lent refuses nothing after 5 and 6."""
    image = Image(2, 3, 30)
    book.group("no block lent: nothing refused but 5, on a fresh reader, between blocks and on a complete one",
               "readings 2 and 3")
    start(book)
    for number in (0, 1, 2):
        for asked in (1, 128):
            turn(book, asked, [], b"")
            turn(book, asked, [], filler(31))
        turn(book, 0, [], b"", number=5)
        if number < 2:
            taken(book, image, number)
    complete(book, 0)


def block_refusals(book):
    """Each refusal of a block, on a reader that has accepted two blocks of three."""
    image = Image(3, 500, 100)
    book.group("blocks again, before their turn and past it: 8 with the number found", "refusal 8")
    start(book)
    refused(book, image.blocks[1], 8, 1)
    refused(book, image.blocks[2], 8, 2)
    taken(book, image, 0)
    refused(book, image.blocks[0], 8, 0)
    refused(book, image.blocks[2], 8, 2)
    taken(book, image, 1)
    refused(book, image.blocks[1], 8, 1)
    refused(book, image.blocks[0], 8, 0)
    for number in (3, 65535, LARGEST):
        refused(book, sealed(head_of(number, 3, 500, 100), filled(data(100))), 8, number)
    book.group("each other refusal of a block but 16, with the value found", "R37")
    for count in (0, 65536, LARGEST):
        refused(book, sealed(head_of(2, count, 500, 100), filled(data(100))), 7, count)
    for count in (1, 2, 4, 65535):
        refused(book, sealed(head_of(2, count, 500, 480), data(480)), 9, count)
    for release in (0, 499, 501, 500 + 2**31, LARGEST):
        refused(book, sealed(head_of(2, 3, release, 100), filled(data(100))), 10, release)
    for length in (0, 481, 512, 1024, 65535):
        refused(book, sealed(head_of(2, 3, 500, length), bytes(480)), 12, length)
    for mark in (1, 255, 256, 32768, 65535):
        refused(book, sealed(head_of(2, 3, 500, 100, mark), filled(data(100))), 13, mark)
    complete(book, 17)
    taken(book, image, 2)
    complete(book, 0)


def first_refusals(book):
    """The same on a fresh reader, and at the lengths of the hand cases."""
    book.group("refusals of a first block: 7, 12, 13", "R37")
    start(book)
    for count in (0, 65536, 65537, LARGEST):
        refused(book, sealed(head_of(0, count, 1, 480), data(480)), 7, count)
    for count, length in ((1, 481), (1, 65535), (2, 0), (2, 479), (2, 481), (65535, 479)):
        refused(book, sealed(head_of(0, count, 1, length), bytes(480)), 12, length)
    refused(book, sealed(head_of(0, 1, 1, 480, 1), data(480)), 13, 1)
    book.group("counts of 65,535: accepted, and the next block too", OPENSSL)
    turn(book, 2, [block(n, 65535, 1, data(480, n)) for n in (0, 1)], filler(960), [data(480, 0), data(480, 1)])
    complete(book, 17)
    book.group("hand cases: length 480 in a middle block passes, 479 is refused; 0 passes at count 1 and is refused in "
               "the last block at count 2", "R47 (hand cases)")
    image = Image(3, 2, 1)
    start(book)
    taken(book, image, 0)
    refused(book, sealed(head_of(1, 3, 2, 479), filled(data(479))), 12, 479)
    taken(book, image, 1)
    start(book)
    turn(book, 1, [block(0, 1, 2, b"")], filler(480), [b""])
    complete(book, 0)
    start(book)
    turn(book, 1, [block(0, 2, 2, data(480))], filler(480), [data(480)])
    refused(book, sealed(head_of(1, 2, 2, 0), bytes(480)), 12, 0)
    complete(book, 17)


def with_faults(faults):
    """A last block of three that has these faults, and the value that its first one holds."""
    number, count = (0 if 8 in faults else 2), (65536 if 7 in faults else 4 if 9 in faults else 3)
    release, length = (501 if 10 in faults else 500), (0 if 12 in faults else 100)
    mark = 9 if 13 in faults else 0
    body = data(480) if 15 in faults else filled(data(length))
    b = sealed(head_of(number, count, release, length, mark), body)
    held = {7: count, 8: number, 9: count, 10: release, 12: length, 13: mark}
    return (spoiled(b, 300, 64) if 14 in faults else b), held.get(faults[0], "-")


def block_orders(book):
    """Each of a block's refusals with the next, and all of them: the first in the order is given."""
    image = Image(3, 500, 100)
    order = (14, 7, 8, 9, 10, 12, 13, 15)
    book.group("order of a block, 14, 7, 8, 9, 10, 12, 13, 15: each with the next, and all", ORDERS)
    start(book)
    turn(book, 2, image.blocks[:2], filler(960), image.payloads[:2])
    for faults in list(zip(order, order[1:])) + [order]:
        b, value = with_faults(faults)
        refused(book, b, faults[0], value)
    complete(book, 17)
    taken(book, image, 2)
    book.group("after the last block: 16, before 14 and every other; 5, 6 and 4 still come first",
               ORDERS + "; reading 5")
    complete(book, 0)
    for b in image.blocks[:1] + [with_faults((at,))[0] for at in (14, 8, 13)] + [bytes(512), block(3, 4, 500, data(1))]:
        refused(book, b, 16)
    turn(book, 3, image.blocks, filler(1440), stop="0 16 -")
    turn(book, 0, image.blocks, filler(1440), number=5)
    turn(book, 3, [image.blocks[0], b"\0"], filler(1440), number=6)
    turn(book, 3, image.blocks, filler(1439), number=4)
    turn(book, 3, [], b"")
    complete(book, 0)


def mixed_images(book):
    """Two images in one reading."""
    first, release, count = Image(3, 70, 9), Image(3, 71, 9), Image(4, 70, 9)
    book.group("two images mixed: 10 where the release differs, 9 where the count does, 9 where both do",
               "refusals 9 and 10")
    start(book)
    taken(book, first, 0)
    refused(book, release.blocks[1], 10, 71)
    refused(book, count.blocks[1], 9, 4)
    refused(book, Image(4, 71, 9).blocks[1], 9, 4)
    turn(book, 2, [first.blocks[1], release.blocks[2]], filler(960), first.payloads[1:2], "1 10 71")
    complete(book, 17)
    turn(book, 1, first.blocks[2:], filler(480), first.payloads[2:])
    complete(book, 0)
    book.group("a start in the middle drops what was fixed and accepted", "R26 to R36; docs/CONSOLE.md")
    start(book)
    turn(book, 2, first.blocks[:2], filler(960), first.payloads[:2])
    start(book)
    complete(book, 17)
    refused(book, first.blocks[2], 8, 2)
    turn(book, 4, count.blocks, filler(1920), count.payloads)
    complete(book, 0)
    start(book)
    complete(book, 17)


def not_fixed(book):
    """A refused first block fixes nothing."""
    other = Image(2, 91, 77)
    book.group("count and release are not fixed by a refused first block, whatever refused it: another image is "
               "accepted then",
               "R48 (easy errors)")
    good = head_of(0, 5, 90, 480)
    wrong = ((sealed(head_of(0, 1, 90, 100), data(480)), 15, "-"), (sealed(head_of(0, 5, 90, 480, 3), data(480)), 13, 3),
             (sealed(head_of(0, 5, 90, 100), filled(data(100))), 12, 100),
             (spoiled(sealed(good, data(480)), 15, 1), 14, "-"),
             (sealed(head_of(0, 70000, 90, 480), data(480)), 7, 70000), (sealed(head_of(1, 5, 90, 480), data(480)), 8, 1))
    for b, reason, value in wrong:
        start(book)
        refused(book, b, reason, value)
        complete(book, 17)
        turn(book, 2, other.blocks, filler(960), other.payloads)
        complete(book, 0)


def stops(book):
    """A turn that stops in its middle, and goes on."""
    image = Image(3, 12, 44)
    book.group("a turn that stops in its middle keeps what was accepted and leaves the rest of the output; it goes on with "
               "the right block", OPENSSL + "; reading 6")
    stopped = ((spoiled(image.blocks[1], 20, 2), "14 -"), (image.blocks[2], "8 2"), (block(1, 3, 13, data(480)), "10 13"),
               (sealed(head_of(1, 3, 12, 479), filled(data(479))), "12 479"))
    for b, why in stopped:
        start(book)
        turn(book, 128, [image.blocks[0], b, image.blocks[2]], filler(1440), image.payloads[:1], "1 " + why)
        complete(book, 17)
        turn(book, 3, image.blocks[1:], filler(960), image.payloads[1:])
        complete(book, 0)
    book.group("the asked number ends a turn before a wrong block; a block after the last stops one", OPENSSL)
    start(book)
    turn(book, 1, [image.blocks[0], bytes(512)], filler(480), image.payloads[:1])
    turn(book, 128, image.blocks[1:] + image.blocks[:1], filler(1440), image.payloads[1:], "2 16 -")
    complete(book, 0)


def fill_bytes(book):
    """Fill that is not zero under a right check."""
    book.group("a fill byte other than zero under a right check: 15 at the first, a middle and the last one, output "
               "unchanged",
               "refusal 15; reading 4")
    for length, places in ((0, (0, 240, 479)), (100, (100, 290, 479)), (479, (479,))):
        start(book)
        for place in places:
            body = spoiled(filled(data(length)), place, 1 + place % 255)
            refused(book, sealed(head_of(0, 1, 6, length), body), 15)
        complete(book, 17)
        turn(book, 1, [block(0, 1, 6, data(length))], filler(480), [data(length)])
        complete(book, 0)
    image = Image(3, 6, 100)
    last = sealed(head_of(2, 3, 6, 100), spoiled(filled(data(100)), 479, 4))
    start(book)
    turn(book, 3, image.blocks[:2] + [last], filler(1500), image.payloads[:2], "2 15 -")
    taken(book, image, 2)
    complete(book, 0)


def wrong_keys(book):
    """Readers with other keys than the writer's."""
    other = key(16, 0x99)
    image = Image(2, 6, 100)
    book.group("a wrong encryption key: not seen in a full block, whose bytes come out wrong, and 15 in a short last one",
               "OpenSSL; reading 14")
    start(book, other, CKEY)
    turn(book, 1, image.blocks[:1], filler(480), [opened(image.blocks[0], other)])
    refused(book, image.blocks[1], 15)
    complete(book, 17)
    start(book, other, CKEY)
    whole = block(0, 1, 6, data(480))
    turn(book, 1, [whole], filler(480), [opened(whole, other)])
    complete(book, 0)
    book.group("a wrong check key, and the two keys changed over: 14", "refusal 14")
    for ekey, ckey in ((EKEY, other), (CKEY, EKEY), (EKEY, EKEY), (EKEY, CKEY + CKEY[:8]), (EKEY, CKEY + CKEY)):
        start(book, ekey, ckey)
        refused(book, image.blocks[0], 14)
        complete(book, 17)


def every_byte(book):
    """One sealed block with a byte changed, all over it."""
    book.group("one block with a byte changed, in each field of the header and in every other piece, by a value that goes with its place: 14; then "
               "the block itself",
               "refusal 14")
    payload = data(200)
    b = block(0, 1, 0x0A0B0C0D, payload)
    start(book)
    for place in PLACES:
        refused(book, spoiled(b, place, 1 + 37 * place % 255), 14)
    turn(book, 1, [b], filler(480), [payload])
    complete(book, 0)


def bad_lines(book):
    """Lines outside the form, which change nothing held."""
    image = Image(2, 1, 5)
    e, c, u, p, o = h(EKEY), h(CKEY), h(UNUSED), h(data(4)), h(filler(32))
    b, out = h(image.blocks[1][:32]), h(filler(30))
    book.group("bad lines for `write`; they change nothing held", "docs/CONSOLE.md")
    start(book)
    taken(book, image, 0)
    for text in ("write", "write %s %s 0 1 2 1 {} %s" % (e, c, p), "write %s %s 0 1 2 1 {} %s %s -" % (e, c, p, o),
                 "write %s %s - 1 2 1 {} %s %s" % (e, c, p, o), "write %s %s 0 -1 2 1 {} %s %s" % (e, c, p, o),
                 "write %s %s 0 1 4294967296 1 {} %s %s" % (e, c, p, o), "write %s %s 0 1 2 1 {} %s0 %s" % (e, c, p, o),
                 "write %s %s 0 1 2 1 {} %s %s0" % (e, c, p, o), "write %s0 %s 0 1 2 1 {} %s %s" % (e, c, p, o),
                 "write %s %s 0 1 2 1 {}  %s %s" % (e, c, p, o), "write %s %s 0 1 2 1 {} %s %s " % (e, c, p, o),
                 "Write %s %s 0 1 2 1 {} %s %s" % (e, c, p, o), "write %s %s 0 1 2 4294967296 {} %s %s" % (e, c, p, o),
                 "write %s %s 0 1 2 4294967297 {} %s %s" % (e, c, p, o), "write %s %s 0 1 2 - {} %s %s" % (e, c, p, o),
                 "write %s %s 0 1 2 +1 {} %s %s" % (e, c, p, o), "write %s %s 0 1 2 1 {}0 %s %s" % (e, c, p, o),
                 "write %s %s 0 1 2 1 {}00 %s %s" % (e, c, p, o), "write %s %s 0 1 2 1 %s %s %s" % (e, c, u[2:], p, o),
                 "write %s %s 0 1 2 1 %s %s %s" % (e, c, u[1:], p, o), "write %s %s 0 1 2 1 - %s %s" % (e, c, p, o),
                 "write %s %s 0 1 2 3 %s %s %s" % (e, c, u[2:], p, o), "write %s %s 0 1 2 {} 1 %s %s" % (e, c, p, o)):
        book.bad(text.replace("{}", u))
    book.group("bad lines: `write` without edition and previous check, as it was before, and with one of them",
               "docs/CONSOLE.md")
    for words in ("", " 1", " " + u):
        book.bad("write %s %s 0 1 2%s %s %s" % (e, c, words, p, o))
    book.group("bad lines for the reader's calls; they change nothing held, and neither does `write`", "docs/CONSOLE.md")
    for text in ("read-start", "read-start " + e, "read-start %s %s %s" % (e, c, c), "read-start %s0 %s" % (e, c),
                 "read-start %s %sg" % (e, c[1:]), "read-start  %s %s" % (e, c), "read-start %s %s " % (e, c),
                 "read-start\t%s %s" % (e, c), "read_start %s %s" % (e, c), "read-complete ", " read-complete",
                 "read-complete -", "read-complete 0", "read-complete\r", "Read-complete", "read-completed", "read",
                 "read-"):
        book.bad(text)
    for text in ("read-turn", "read-turn 1", "read-turn 1 " + b, "read-turn 1 %s %s -" % (b, out),
                 "read-turn - %s %s" % (b, out), "read-turn +1 %s %s" % (b, out), "read-turn 0x1 %s %s" % (b, out),
                 "read-turn 1. %s %s" % (b, out), "read-turn 18446744073709551616 %s %s" % (b, out),
                 "read-turn 1 %s0 %s" % (b, out), "read-turn 1 %s %s0" % (b, out), "read-turn 1 %sg %s" % (b[1:], out),
                 "read-turn  1 %s %s" % (b, out), "read-turn 1 %s %s\r" % (b, out), "read-turns 1 %s %s" % (b, out)):
        book.bad(text)
    written(book, 0, 1, 2, data(4))
    unwritten(book, 7, 0, 0, data(4))
    complete(book, 17)
    book.group("a hundred zeros before the asked number: read", "docs/CONSOLE.md; " + OPENSSL)
    turn(book, "0" * 100 + "1", image.blocks[1:], filler(480), image.payloads[1:])
    complete(book, 0)
    book.group("hex digits in upper case: read", "docs/CONSOLE.md; " + OPENSSL)
    book.add("read-start %s %s" % (e.upper(), c.upper()), "0")
    book.add("read-turn 1 %s %s" % (h(image.blocks[0]).upper(), h(filler(480)).upper()), "0 1 480 - - - " + h(image.payloads[0]))


def chained(number, count, release, payload, previous, ekey=EKEY, ckey=CKEY, mark=2):
    """A block whose check covers the check before it, whatever its mark."""
    return sealed(head_of(number, count, release, len(payload), mark), filled(payload), ekey, ckey, previous)


def alone(number, count, release, payload, mark=0):
    """A block whose check covers its own bytes alone, whatever its mark."""
    return sealed(head_of(number, count, release, len(payload), mark), filled(payload))


class Chain:
    """An image of edition 2: each block is sealed on the check of the one before it, the first one on zeros."""

    def __init__(self, count, release, last, ekey=EKEY, ckey=CKEY, build=0):
        sizes = [480] * (count - 1) + [last]
        self.payloads = [data(size, 50 + 7 * build + number + release) for number, size in enumerate(sizes)]
        self.blocks, self.checks = [], [ZEROS]
        for number, payload in enumerate(self.payloads):
            self.blocks.append(chained(number, count, release, payload, self.checks[-1], ekey, ckey))
            self.checks.append(self.blocks[-1][496:])


def chain_written(book, result, number, count, release, payload, edition, previous, out=filler(512), ekey=EKEY, ckey=CKEY):
    """The block that is to be written over the front of the output."""
    line = write_line(ekey, ckey, number, count, release, payload, out, edition, previous)
    book.add(line, "0 " + h(laid_over(result, out)))


def having(book, image, number):
    """A reader that has accepted the first blocks of an image."""
    start(book)
    turn(book, 128, image.blocks[:number], filler(480 * number), image.payloads[:number])


def chain_after_refused_start(book):
    """The zero state accepts no block of edition 2 either."""
    book.group("after a refused start: the zero state accepts no block of edition 2, sealed on zeros under any keys",
               "docs/CONSOLE.md (zero state)")
    start(book, counting(15), CKEY, 1)
    refused(book, Chain(1, 5, 3).blocks[0], 14)
    head = head_of(0, 1, 5, 480, 2)
    refused(book, head + bytes(480) + check_of(bytes(16), head + bytes(480) + ZEROS), 14)
    refused(book, head + bytes(496), 14)
    complete(book, 17)


def chain_writer(book):
    """Blocks of edition 2, and when the previous check counts."""
    book.group("`write` in edition 2: images of 1 to 4 blocks, each given the check of the block before it, the first one "
               "zeros", CHAIN_OPENSSL)
    for count, last in ((1, 0), (1, 1), (1, 480), (2, 1), (3, 480), (4, 77)):
        image = Chain(count, 900 + count, last)
        for number, payload in enumerate(image.payloads):
            chain_written(book, image.blocks[number], number, count, 900 + count, payload, 2, image.checks[number])
    book.group("`write` in edition 2, number 0: the previous check is unused, so every one gives the same block", CHAIN_OPENSSL)
    image = Chain(2, 31, 9)
    for previous in (ZEROS, UNUSED, b"\xff" * 16, image.checks[2]):
        chain_written(book, image.blocks[0], 0, 2, 31, image.payloads[0], 2, previous)
    book.group("`write` in edition 2, number 1: every previous check gives another block, zeros too", CHAIN_OPENSSL)
    for previous in (ZEROS, UNUSED, b"\xff" * 16, bytes(15) + b"\1", b"\x80" + bytes(15)):
        result = chained(1, 2, 31, image.payloads[1], previous)
        chain_written(book, result, 1, 2, 31, image.payloads[1], 2, previous)
    book.group("`write` in edition 1: the previous check is unused at every number", CHAIN_OPENSSL)
    plain = Image(2, 31, 9)
    for number in (0, 1):
        for previous in (ZEROS, UNUSED, b"\xff" * 16):
            chain_written(book, plain.blocks[number], number, 2, 31, plain.payloads[number], 1, previous)
    book.group("`write` in edition 2: outputs of 513 and 700 bytes, leading zeros of the edition, hex in upper case, the last "
               "number there can be", CHAIN_OPENSSL)
    for size in (513, 700):
        chain_written(book, image.blocks[1], 1, 2, 31, image.payloads[1], 2, image.checks[1], filler(size))
    chain_written(book, image.blocks[1], 1, 2, 31, image.payloads[1], "0000000000002", image.checks[1])
    book.add("write %s %s 1 2 31 2 %s %s %s" % (h(EKEY), h(CKEY), h(image.checks[1]).upper(), h(image.payloads[1]), h(filler(512))),
             "0 " + h(image.blocks[1]))
    chain_written(book, chained(65534, 65535, 31, data(5), UNUSED), 65534, 65535, 31, data(5), 2, UNUSED)


def chain_key_pairs(book):
    """Every pair of key sizes."""
    book.group("edition 2 under keys of 16, 24 and 32 bytes, each in either place, and under equal keys: written, read and "
               "complete", CHAIN_OPENSSL)
    pairs = [(key(i, i + j), key(j, 3 * i + j)) for i, j in ((16, 24), (24, 32), (32, 16))]
    for ekey, ckey in pairs + [(key(16, 0x55), key(16, 0x55))]:
        image = Chain(2, 400, 130, ekey, ckey)
        for number, payload in enumerate(image.payloads):
            chain_written(book, image.blocks[number], number, 2, 400, payload, 2, image.checks[number], filler(512), ekey, ckey)
        start(book, ekey, ckey)
        turn(book, 2, image.blocks, filler(960), image.payloads)
        complete(book, 0)


def chain_images(book):
    """Images of edition 2 read through."""
    book.group("images of edition 2 of 1 to 4 blocks, block by block, completion asked before and after each", CHAIN_OPENSSL)
    for count, last in ((1, 0), (1, 480), (2, 1), (3, 480), (4, 256)):
        image = Chain(count, 100 * count + last, last)
        start(book)
        for number in range(count):
            complete(book, 17)
            taken(book, image, number)
        complete(book, 0)
    book.group("one image of edition 2 of 5 blocks in turns of many kinds", CHAIN_OPENSSL)
    image = Chain(5, 2**31 + 1, 59)
    for steps in (((5, 5),), ((0, 1), (4, 3), (0, 128), (2, 1), (1, 2))):
        start(book)
        at = 0
        for lent, asked in steps:
            k = min(lent, asked)
            turn(book, asked, image.blocks[at:at + lent], filler(480 * k + 5), image.payloads[at:at + k])
            at += k
            complete(book, 0 if at == 5 else 17)
    book.group("a turn of 8 blocks of edition 2, and one that a damaged block stops behind 4", CHAIN_OPENSSL)
    image = Chain(8, 30, 333)
    start(book)
    turn(book, 128, image.blocks, filler(480 * 8), image.payloads)
    complete(book, 0)
    having(book, image, 3)
    turn(book, 20, image.blocks[3:7] + [spoiled(image.blocks[7], 511, 1)], filler(2400), image.payloads[3:7], "4 14 -")
    taken(book, image, 7)
    complete(book, 0)


def mixed_builds(book):
    """Two builds of one count and one release."""
    one, payload = Image(3, 70, 9), data(480, 33)
    book.group("two builds of one count and release in edition 1: nothing tells them apart", CHAIN_OPENSSL)
    start(book)
    turn(book, 3, [one.blocks[0], alone(1, 3, 70, payload), one.blocks[2]], filler(1440),
         [one.payloads[0], payload, one.payloads[2]])
    complete(book, 0)
    one, other = Chain(3, 70, 9), Chain(3, 70, 9, build=1)
    book.group("two builds of one count and release in edition 2: 14 where the other one's blocks begin, at each place; the "
               "right blocks go on then, and either build alone is accepted", CHAIN_OPENSSL)
    for place in (1, 2):
        start(book)
        turn(book, 4, one.blocks[:place] + other.blocks[place:], filler(1920), one.payloads[:place], "%d 14 -" % place)
        turn(book, 4, one.blocks[place:], filler(1920), one.payloads[place:])
        complete(book, 0)
        having(book, other, place)
        refused(book, one.blocks[place], 14)
        turn(book, 4, other.blocks[place:], filler(1920), other.payloads[place:])
        complete(book, 0)
    book.group("one block of another build among those of edition 2: 14 at its place", CHAIN_OPENSSL)
    start(book)
    turn(book, 4, [one.blocks[0], other.blocks[1], one.blocks[2]], filler(1920), one.payloads[:1], "1 14 -")
    complete(book, 17)


def disorders(book):
    """Blocks lost, doubled and out of order."""
    image = Chain(3, 500, 100)
    book.group("edition 2: blocks again, before their turn and past it: 14, not 8, since another check is covered", CHAIN_OPENSSL)
    for number in (0, 1, 2):
        having(book, image, number)
        for offered in range(3):
            if offered != number:
                refused(book, image.blocks[offered], 14)
        turn(book, 4, image.blocks[number:], filler(1920), image.payloads[number:])
        complete(book, 0)
    book.group("edition 2: a block doubled, left out and changed with the next, in the middle of a turn", CHAIN_OPENSSL)
    a, b, c = image.blocks
    for blocks, number in (((a, b, b, c), 2), ((a, c), 1), ((a, c, b), 1), ((b, c), 0), ((a, a), 1)):
        start(book)
        turn(book, 4, list(blocks), filler(1920), image.payloads[:number], "%d 14 -" % number)
        complete(book, 17)
    book.group("edition 2: a number other than the expected one under a check that covers the last one accepted: 8. A fresh "
               "reader covers with zeros, whatever number it reads", CHAIN_RULES)
    start(book)
    for number in (1, 65534):
        refused(book, chained(number, 65535, 500, data(480), ZEROS), 8, number)
    refused(book, chained(0, 3, 500, data(480), UNUSED), 14)
    having(book, image, 2)
    for number in (1, 3, 2**32 - 1):
        refused(book, chained(number, 3, 500, data(480), image.checks[2]), 8, number)
    refused(book, chained(2, 3, 500, data(480), ZEROS), 14)
    refused(book, chained(2, 3, 500, data(480), image.checks[1]), 14)
    complete(book, 17)


def fixed_edition(book):
    """The first accepted block fixes the edition."""
    plain, image = Image(3, 12, 44), Chain(3, 12, 44)
    book.group("edition 1 is fixed: a block of edition 2 gets 14, but 13 with 2 where it was sealed on the last check, which is "
               "kept in edition 1 too", CHAIN_RULES)
    for number in (1, 2):
        having(book, plain, number)
        size = 480 if number == 1 else 44
        refused(book, image.blocks[number], 14)
        refused(book, chained(number, 3, 12, data(size), ZEROS), 14)
        refused(book, chained(number, 3, 12, data(size), plain.blocks[number - 1][496:]), 13, 2)
        refused(book, alone(number, 3, 12, data(size), 2), 14)
        refused(book, chained(number, 3, 12, data(size), plain.blocks[number - 1][496:], mark=0), 14)
        taken(book, plain, number)
    complete(book, 0)
    book.group("edition 2 is fixed: a block of edition 1 gets 13 with 0, and 14 where its check covers the last one too", CHAIN_RULES)
    for number in (1, 2):
        having(book, image, number)
        refused(book, plain.blocks[number], 13, 0)
        refused(book, chained(number, 3, 12, plain.payloads[number], image.checks[number], mark=0), 14)
        refused(book, alone(number, 3, 12, plain.payloads[number], 2), 14)
        taken(book, image, number)
    complete(book, 0)
    book.group("the same in the middle of a turn", CHAIN_RULES)
    start(book)
    turn(book, 3, [image.blocks[0], plain.blocks[1]], filler(960), image.payloads[:1], "1 13 0")
    turn(book, 2, image.blocks[1:], filler(960), image.payloads[1:])
    start(book)
    turn(book, 3, [plain.blocks[0], image.blocks[1]], filler(960), plain.payloads[:1], "1 14 -")
    turn(book, 2, plain.blocks[1:], filler(960), plain.payloads[1:])
    complete(book, 0)


def odd_marks(book):
    """Values in bytes 14 and 15 that are neither 0 nor 2."""
    plain, image = Image(2, 12, 44), Chain(2, 12, 44)
    text = ", ".join("%d" % mark for mark in ODD_MARKS)
    book.group("bytes 14 and 15 of " + text + ": 13 with that value where the check covers bytes 0 to 495, and 14 where it "
               "covers the last check too; in a fresh reader and where either edition is fixed", CHAIN_RULES)
    for number, held, last in ((0, None, ZEROS), (1, plain, plain.blocks[0][496:]), (1, image, image.checks[1])):
        if held:
            having(book, held, 1)
        else:
            start(book)
        for mark in ODD_MARKS:
            payload = data(480 if number == 0 else 44)
            refused(book, alone(number, 2, 12, payload, mark), 13, mark)
            refused(book, chained(number, 2, 12, payload, last, mark=mark), 14)
        complete(book, 17)


def damaged_marks(book):
    """Bytes 14 and 15 changed after sealing."""
    plain, image = Image(2, 12, 44), Chain(2, 12, 44)
    book.group("bytes 14 and 15 changed after sealing, from 0 to 2, from 2 to 0 and to other values: 14 in a fresh reader and "
               "where the edition is fixed", CHAIN_OPENSSL)
    for held, was in ((plain, 0), (image, 2)):
        start(book)
        for number in (0, 1):
            for mark in (2 - was,) + ODD_MARKS:
                refused(book, held.blocks[number][:14] + mark.to_bytes(2, "big") + held.blocks[number][16:], 14)
            taken(book, held, number)
        complete(book, 0)


def nothing_moved(book):
    """A refused block fixes no edition and moves no check on."""
    plain, image = Image(2, 91, 77), Chain(2, 91, 77)
    book.group("a refused first block fixes no edition and leaves no check: the image of the other edition, and of the same, "
               "is accepted then", CHAIN_RULES)
    for mark in (0, 2):
        tail = ZEROS if mark else b""
        short = sealed(head_of(0, 2, 91, 479, mark), filled(data(479)), tail=tail)
        unfilled = sealed(head_of(0, 1, 91, 100, mark), data(480), tail=tail)
        for block, reason, value in ((short, 12, 479), (unfilled, 15, "-")):
            for held in (plain, image):
                start(book)
                refused(book, block, reason, value)
                turn(book, 2, held.blocks, filler(960), held.payloads)
                complete(book, 0)
    image = Chain(3, 500, 100)
    book.group("a refused block of edition 2 does not move the last check on: the right one is accepted then", CHAIN_RULES)
    for head, value in ((head_of(1, 70000, 500, 480, 2), "7 70000"), (head_of(2, 3, 500, 480, 2), "8 2"),
                        (head_of(1, 4, 500, 480, 2), "9 4"), (head_of(1, 3, 501, 480, 2), "10 501"),
                        (head_of(1, 3, 500, 479, 2), "12 479")):
        start(book)
        wrong = sealed(head, filled(data(479)), tail=image.checks[1])
        turn(book, 3, [image.blocks[0], wrong], filler(960), image.payloads[:1], "1 " + value)
        turn(book, 2, image.blocks[1:], filler(960), image.payloads[1:])
        complete(book, 0)
    book.group("a start in the middle drops the edition and the last check", CHAIN_RULES)
    plain = Image(3, 500, 100)
    for one, other in ((plain, image), (image, plain), (image, image)):
        having(book, one, 2)
        start(book)
        turn(book, 3, other.blocks, filler(1440), other.payloads)
        complete(book, 0)


def chain_with_faults(image, faults):
    """A last block of three of edition 2 that has these faults, and the value that its first one holds."""
    number, count = (0 if 8 in faults else 2), (65536 if 7 in faults else 4 if 9 in faults else 3)
    release, length = (501 if 10 in faults else 500), (0 if 12 in faults else 100)
    mark = 0 if 13 in faults else 2
    body = data(480) if 15 in faults else filled(data(length))
    tail = b"" if 13 in faults else image.checks[2]
    b = sealed(head_of(number, count, release, length, mark), body, tail=tail)
    held = {7: count, 8: number, 9: count, 10: release, 12: length, 13: mark}
    return (spoiled(b, 300, 64) if 14 in faults else b), held.get(faults[0], "-")


def chain_orders(book):
    """The order of a block's refusals where edition 2 is fixed; 13 is mark 0 there."""
    image = Chain(3, 500, 100)
    order = (14, 7, 8, 9, 10, 12, 13, 15)
    book.group("order of a block where edition 2 is fixed, 14, 7, 8, 9, 10, 12, 13, 15: each alone and with the next, and "
               "all", CHAIN_ORDERS)
    having(book, image, 2)
    alone_or_two = [(at,) for at in order] + list(zip(order, order[1:]))
    for faults in alone_or_two + [order]:
        b, value = chain_with_faults(image, faults)
        refused(book, b, faults[0], value)
    complete(book, 17)
    taken(book, image, 2)
    book.group("after the last block of edition 2: 16, before 14, 13 and every other; 5, 6 and 4 still come first", CHAIN_ORDERS)
    for b in image.blocks[2:] + [chain_with_faults(image, (at,))[0] for at in (14, 8, 13)] + [chained(3, 4, 500, data(1), image.checks[3])]:
        refused(book, b, 16)
    turn(book, 0, image.blocks, filler(1440), number=5)
    turn(book, 3, [image.blocks[0], b"\0"], filler(1440), number=6)
    turn(book, 3, image.blocks, filler(1439), number=4)
    complete(book, 0)


def chain_wrong_keys(book):
    """Readers with other keys than the writer's."""
    other = key(16, 0x99)
    image = Chain(2, 6, 100)
    book.group("edition 2 under a wrong encryption key: not seen in a full block, 15 in a short last one; under a wrong check "
               "key: 14", CHAIN_OPENSSL)
    start(book, other, CKEY)
    turn(book, 1, image.blocks[:1], filler(480), [opened(image.blocks[0], other)])
    refused(book, image.blocks[1], 15)
    complete(book, 17)
    start(book, EKEY, other)
    refused(book, image.blocks[0], 14)


def chain_every_byte(book):
    """A block of edition 2 with a byte changed, all over it."""
    image = Chain(2, 0x0A0B0C0D, 200)
    book.group("one block of edition 2 with a byte changed, in each field of the header, in some pieces and in the check: 14; then the block itself",
               CHAIN_OPENSSL)
    having(book, image, 1)
    for place in FEW_PLACES:
        refused(book, spoiled(image.blocks[1], place, 1 + 37 * place % 255), 14)
    taken(book, image, 1)
    complete(book, 0)


class Receiving:
    """A receiver as the request has it: what is held, in Python's own words."""

    def __init__(self, book, count, store=None, map_=None, ekey=EKEY, ckey=CKEY, number=0, told=None):
        self.book, self.count, self.ekey = book, count, ekey
        self.store = bytearray(filler(480 * count) if store is None else store)
        self.map = bytearray(filler((count + 7) // 8, 0x5B) if map_ is None else map_)
        line = "receive-start %s %s %d %d %s %s" % (h(ekey), h(ckey), count if told is None else told, RECEIVED, h(bytes(self.store)), h(bytes(self.map)))
        if number == 0:
            for byte in range((count + 7) // 8):
                self.map[byte] = 0
        self.held = 0
        book.add(line, "%d %s %s" % (number, h(bytes(self.store)), h(bytes(self.map))))

    def _line(self, b, store, map_):
        return "receive %s %s %s" % (h(b), h(bytes(store)), h(bytes(map_)))

    def takes(self, b, number):
        """A block that is accepted."""
        line = self._line(b, self.store, self.map)
        self.store[480 * number:480 * number + 480] = opened(b, self.ekey)
        self.map[number // 8] |= 1 << number % 8
        self.held += 1
        self.book.add(line, "0 - %d %s %s" % (self.held, h(bytes(self.store)), h(bytes(self.map))))

    def refuses(self, b, number, value="-", store=None, map_=None):
        """A block that is refused, into what is lent."""
        store = self.store if store is None else store
        map_ = self.map if map_ is None else map_
        self.book.add(self._line(b, store, map_), "%d %s %d %s %s" % (number, value, self.held, h(bytes(store)), h(bytes(map_))))

    def complete(self, number):
        self.book.add("receive-complete", str(number))


def nothing_received(book):
    """The zero state."""
    book.group("before any start: a block of 512 bytes gets 14, any other length 6; not complete", "docs/CONSOLE.md (zero state); E11")
    b = block(0, 1, RECEIVED, data(5))
    book.add("receive-complete", "17")
    book.add("receive %s - -" % h(b), "14 - 0 - -")
    book.add("receive %s aa bb" % h(b[1:]), "6 - 0 aa bb")
    book.add("receive - - -", "6 - 0 - -")


def receiver_starts(book):
    """Refusals of a start, in their order; what it clears."""
    book.group("starts: keys of every wrong size, counts, and stores and maps one byte short; a refused one clears nothing", RECEIVER_RULES)
    for size in WRONG_KEY_SIZES:
        Receiving(book, 1, ekey=counting(size), number=1)
        Receiving(book, 1, ckey=counting(size), number=1)
    for told in (0, 65536, 2**32 - 1):
        Receiving(book, 1, number=7, told=told)
        Receiving(book, 1, ekey=counting(15), number=1, told=told)
        Receiving(book, 1, store=b"", map_=b"", number=7, told=told)
    for count in (1, 9):
        Receiving(book, count, store=filler(480 * count - 1), number=4)
        Receiving(book, count, map_=filler((count + 7) // 8 - 1), number=4)
        after = Receiving(book, count, store=filler(480 * count + 3), map_=filler((count + 7) // 8 + 3))
        after.complete(17)
    Receiving(book, 1, store=filler(480 * 9 - 1), map_=filler(9), number=4, told=9)
    Receiving(book, 1, number=4, told=65535)


def receiver_orders(book):
    """Orders of three blocks, and a map of two bytes."""
    book.group("three orders of the three blocks of an image, the first offered again at the end, which gets 21; not complete before the last",
               RECEIVER_OPENSSL)
    image = Image(3, RECEIVED, 77)
    for order in ((0, 2, 1), (1, 0, 2), (2, 1, 0)):
        r = Receiving(book, 3)
        for number in order:
            r.complete(17)
            r.takes(image.blocks[number], number)
        r.refuses(image.blocks[order[0]], 21)
        r.complete(0)
    book.group("images of one block, whole, and blocks 8, 0 and 7 of nine, in memories with bytes behind", RECEIVER_OPENSSL)
    for last in (0, 480):
        r = Receiving(book, 1, store=filler(485), map_=filler(3))
        r.takes(Image(1, RECEIVED, last).blocks[0], 0)
        r.complete(0)
    image = Image(9, RECEIVED, 1)
    r = Receiving(book, 9, store=filler(480 * 9 + 5), map_=filler(4))
    for number in (8, 0, 7):
        r.takes(image.blocks[number], number)
    r.complete(17)


def receiver_refusals(book):
    """Each refusal of a block alone and with the next: the first in the order is given."""
    count = 3
    good = (1, count, RECEIVED, 480)

    def made(faults):
        head = list(good) + [0]
        body = filled(data(480, 1))
        if 7 in faults:
            head[1] = 65536
        if 9 in faults:
            head[1] = head[1] if 7 in faults else 4
        if 10 in faults:
            head[2] = RECEIVED ^ 1
        if 20 in faults:
            head[0] = count
        if 15 in faults:
            head[0], head[3], body = (head[0] if 20 in faults else 2), 100, data(480, 1)
        if 12 in faults:
            head[3] = 481 if 15 not in faults else 0
        if 13 in faults:
            head[4] = 2
        b = sealed(head_of(*head), body)
        if 14 in faults:
            b = spoiled(b, 500, 1)
        if 6 in faults:
            b = b[:-1]
        return b, head

    values = {7: 1, 9: 1, 10: 2, 12: 3, 13: 4}
    order = (6, 4, 14, 7, 9, 10, 20, 12, 13, 15, 21)
    book.group("each refusal of a block, alone and with the next, and 14 and 12 of a block that is held: the first of 6, 4, 14, 7, 9, 10, 20, 12, 13, "
               "15, 21", RECEIVER_RULES)
    sets = [(f,) for f in order] + list(zip(order, order[1:])) + [(14, 21), (12, 21)]
    r = Receiving(book, count)
    for faults in sorted(sets, key=lambda faults: 21 in faults):
        b, head = made(faults)
        if 21 in faults and not r.held:
            r.takes(block(1, count, RECEIVED, data(480, 3)), 1)
            r.takes(block(2, count, RECEIVED, data(50, 3)), 2)
        number = min(faults, key=order.index)
        value = head[values[number]] if number in values else "-"
        short = dict(store=r.store[:-1]) if 4 in faults else {}
        r.refuses(b, number, value, **short)
        if 4 in faults:
            r.refuses(b, number, value, map_=b"")
        r.complete(17)


def receiver_every_byte(book):
    """A block with a byte changed, all over it; 0 to 2 in bytes 14 and 15 too."""
    book.group("one block with a byte changed, in each field of the header, in some pieces and in the check, and bytes 14 and 15 to 2: 14; then the "
               "block itself; then 21", RECEIVER_OPENSSL)
    image = Image(1, RECEIVED, 200)
    r = Receiving(book, 1)
    for place in FEW_PLACES:
        r.refuses(spoiled(image.blocks[0], place, 1 + 37 * place % 255), 14)
    r.refuses(spoiled(image.blocks[0], 15, 2), 14)
    r.takes(image.blocks[0], 0)
    r.refuses(image.blocks[0], 21)
    r.complete(0)


def receiver_edition_2(book):
    """A block of edition 2 is never accepted."""
    book.group("blocks of edition 2: 14 under its own cover, 13 where the check covers bytes 0 to 495 alone", RECEIVER_OPENSSL)
    r = Receiving(book, 2)
    head, body = head_of(0, 2, RECEIVED, 480, 2), data(480)
    b = sealed(head, body, tail=bytes(16))
    r.refuses(b, 14)
    r.refuses(b[:496] + check_of(CKEY, b[:496]), 13, 2)
    r.complete(17)


def receiver_keys(book):
    """Keys of every size."""
    book.group("keys of 16, 24 and 32 bytes, each with each", RECEIVER_OPENSSL)
    for e in (16, 24, 32):
        for c in (16, 24, 32):
            ekey, ckey = key(e, 0x31), key(c, 0x52)
            image = Image(1, RECEIVED, 33, ekey, ckey)
            r = Receiving(book, 1, ekey=ekey, ckey=ckey)
            r.takes(image.blocks[0], 0)
            r.complete(0)


def receiver_bad_lines(book):
    """Lines outside the form."""
    book.group("lines outside the form: too few and too many words, numbers that do not fit, bad hex; nothing held changes", "the console's page")
    r = Receiving(book, 1)
    b = block(0, 1, RECEIVED, data(9))
    words = "receive-start %s %s 1 1 %s 00" % (h(EKEY), h(CKEY), h(filler(480)))
    for line in (words[:-3], words + " 00", words.replace(" 1 1 ", " 4294967296 1 "), words.replace(" 1 1 ", " 1 4294967296 "),
                 words.replace(" 1 1 ", " 1 - "), words[:-1], "receive", "receive -", "receive - -", "receive - - - -",
                 "receive %s %s 0" % (h(b), h(filler(480))), "receive-complete 0", "receive-complete ", "receive-start", "receives - - -"):
        book.bad(line)
    r.takes(b, 0)
    r.complete(0)


def stored(size):
    """An image of that size. No two blocks are equal, nor two neighbouring bytes."""
    return bytes((7 * i + i // BLOCK * 31 + 5) & 0xFF for i in range(size))


def part_of(call, block):
    """What a call shows of a block."""
    return block if call == "view-block" else block[-CHECK:]


def viewed(book, call, image, place, numeral="%d"):
    """The line that shows a block, or says 20."""
    blocks = [image[at:at + BLOCK] for at in range(0, len(image), BLOCK)]
    line = "%s %s %s" % (call, h(image), numeral % place)
    if place < len(blocks):
        book.add(line, "0 %d 0 %s" % (len(blocks), h(part_of(call, blocks[place]))))
    else:
        book.add(line, "0 %d 20 -" % len(blocks))


def view_samples(book, folder):
    """The samples: the check of the last block, and the place behind it."""
    book.group("the samples in both editions: the check of the last block, and the place behind it",
               "samples/make.py; E12")
    for name in ("image", "image-2"):
        with open(os.path.join(folder, name), "rb") as file:
            image = file.read()
        for call in VIEW_CALLS:
            viewed(book, call, image, len(image) // BLOCK - (call == "view-check"))


def view_places(book):
    """Images of 0 to 2 blocks, and places up to the largest number."""
    book.group("images of 0 to 2 blocks: every place below the number of blocks and those behind it, up to 2^64 - 1, some of "
               "which wrap to a block where they are multiplied by 512; leading zeros", "E12")
    for call in VIEW_CALLS:
        for count in (0, 1, 2):
            image = stored(count * BLOCK)
            for place in list(range(count + 2)) + [2 ** 55, 2 ** 55 + 1, 2 ** 32, 2 ** 63, LARGEST_PLACE]:
                viewed(book, call, image, place)
            viewed(book, call, image, 0, "%030d")


def view_lengths(book):
    """Lengths that are no multiple of 512 hold nothing."""
    book.group("lengths that are not a multiple of 512: 6, no blocks, and 20 for every place", "E12")
    for call in VIEW_CALLS:
        for size in (1, 16, 496, 511, 513, 1023):
            for place in (0, LARGEST_PLACE):
                book.add("%s %s %d" % (call, h(stored(size)), place), "6 0 20 -")


def view_bad_lines(book):
    """Lines outside the form."""
    book.group("lines outside the form: places that are no numbers of 64 bits, bad hex, too few and too many words", "the console's page")
    image = h(stored(16))
    for call in VIEW_CALLS:
        for words in ("%s 18446744073709551616" % image, "%s -" % image, "%s -1" % image, "%s 0x0" % image, "%s  0" % image, "%s 0 " % image,
                      "%s" % image, "%s 0 0" % image, "%s 0" % image[:-1], "%sg0 0" % image, " 0", "0 %s" % image, ""):
            book.bad("%s %s" % (call, words))
        book.bad(call)
        book.bad("%s %s 0" % (call.upper(), image))
        book.bad("%ss %s 0" % (call, image))


def bookmark(state, bytes_, ckey=CKEY):
    """A bookmark: next, count, release and edition, the check accepted last, the payload bytes, and their check."""
    numbers, last = state
    covered = b"".join(n.to_bytes(4, "big") for n in numbers) + last + bytes_.to_bytes(8, "big")
    return covered + check_of(ckey, covered)


def saved(book, state, bytes_, ckey=CKEY, numeral="%d"):
    """The reader held is saved."""
    book.add("read-save " + numeral % bytes_, "0 " + h(bookmark(state, bytes_, ckey)))


def resumed(book, mark, answer, bytes_=0, ekey=EKEY, ckey=CKEY):
    """A bookmark resumed, or refused."""
    book.add("read-resume %s %s %s" % (h(ekey), h(ckey), h(mark)), "%d %d" % (answer, bytes_))


def no_reader(book, b):
    """The zero state is held: it accepts nothing, is not complete, and its bookmark is zeros."""
    refused(book, b, 14)
    complete(book, 17)
    book.add("read-save 7", "0 " + "00" * 56)


def after(image, count, edition, release, number, checks):
    """Where a reader stands after so many blocks of an image."""
    return ((number, count, release, edition), checks[number]) if number else ((0, 0, 0, 0), ZEROS)


def read_with_bookmarks(book, image, edition, release, ekey=EKEY, ckey=CKEY):
    """An image read block by block, with a save and a resume before each block and behind the last."""
    count, done = len(image.blocks), 0
    checks = [ZEROS] + [b[496:] for b in image.blocks]
    start(book, ekey, ckey)
    for number in range(count + 1):
        state = after(image, count, edition, release, number, checks)
        saved(book, state, done, ckey)
        resumed(book, bookmark(state, done, ckey), 0, done, ekey, ckey)
        saved(book, state, done, ckey)
        complete(book, 0 if number == count else 17)
        if number < count:
            taken(book, image, number)
            done += len(image.payloads[number])


def bookmarks_read(book):
    """Transfers that break off before every block."""
    book.group("images of 3 blocks in both editions, saved and resumed before each block and behind the last", "OpenSSL; R50")
    read_with_bookmarks(book, Image(3, 0x01020304, 40), 1, 0x01020304)
    read_with_bookmarks(book, Chain(3, 0x05060708, 480), 2, 0x05060708)
    book.group("keys of 16, 24 and 32 bytes, each with each", "OpenSSL; R50")
    for e in (16, 24, 32):
        for c in (16, 24, 32):
            ekey, ckey = key(e, 0x31), key(c, 0x92)
            read_with_bookmarks(book, Chain(1, 9, 5, ekey, ckey), 2, 9, ekey, ckey)
    book.group("numbers of payload bytes from 0 to 2^64 - 1, and leading zeros", "OpenSSL; R50")
    start(book)
    for bytes_ in (0, 1, 255, 256, 2 ** 32 - 1, 2 ** 32, 2 ** 63, 2 ** 64 - 1, 0x0102030405060708):
        saved(book, ((0, 0, 0, 0), ZEROS), bytes_)
        resumed(book, bookmark(((0, 0, 0, 0), ZEROS), bytes_), 0, bytes_)
    saved(book, ((0, 0, 0, 0), ZEROS), 7, numeral="%030d")


def bookmarks_refused(book):
    """What is not a bookmark under the check key."""
    image = Chain(3, 0x05060708, 40)
    state = after(image, 3, 2, 0x05060708, 2, image.checks)
    mark = bookmark(state, 960)
    book.group("a bookmark with one byte changed, every one of the 56: 25, and the reader is the zero state", "refusal 25; R50")
    for place in range(56):
        resumed(book, spoiled(mark, place, 1 << place % 8), 25)
    no_reader(book, image.blocks[0])
    book.group("zeros, ones, the bytes without their check, and the check of bytes 0 to 31 alone: 25", "refusal 25; R50")
    for wrong in (bytes(56), b"\xff" * 56, mark[:40] + bytes(16), mark[:40] + check_of(CKEY, mark[:32])):
        resumed(book, wrong, 25)
    book.group("under another check key: 25. Under another encryption key it is resumed, since it says nothing of it", "refusal 25; R50")
    resumed(book, mark, 25, ckey=EKEY)
    resumed(book, mark, 0, 960, ekey=CKEY)
    refused(book, image.blocks[2], 15)
    book.group("refused with 1, before 25: keys of 0, 15, 17, 23, 25, 31, 33 and 64 bytes in either place", "refusal 1; R50")
    for size in WRONG_KEY_SIZES:
        resumed(book, mark, 1, ekey=key(size, 5))
        resumed(book, bytes(56), 1, ckey=key(size, 5))
    no_reader(book, image.blocks[0])
    resumed(book, mark, 0, 960)
    taken(book, image, 2)
    complete(book, 0)


def bookmarks_of_no_reader(book):
    """States under a right check that no reader was in."""
    image = Chain(3, 0x05060708, 40)
    book.group("states that no reader comes to, under a right check: resumed as they stand; past the count 16, a fixed edition of 3 gets 13, "
               "next 0 fixes nothing", "R50; R37")
    for numbers, reason, value in (((5, 3, 1, 2), 16, "-"), ((3, 0, 1, 2), 16, "-"), ((0, 9, 9, 9), None, None), ((1, 3, 0x05060708, 3), 13, "2")):
        state = (numbers, image.checks[1] if numbers[0] == 1 else ZEROS)
        resumed(book, bookmark(state, 3), 0, 3)
        saved(book, state, 3)
        complete(book, 17)
        if reason:
            refused(book, image.blocks[1], reason, value)
        else:
            taken(book, image, 0)
    book.group("a state whose next is its count is complete, whatever was read: whoever has the check key can say so", "R50")
    resumed(book, bookmark(((7, 7, 1, 2), ZEROS), 0), 0)
    complete(book, 0)


def bookmark_bad_lines(book):
    """Lines outside the form; nothing held changes."""
    book.group("lines outside the form: numbers that do not fit, bookmarks of 0, 55 and 57 bytes, too few and too many words; nothing held "
               "changes", "the console's page")
    start(book)
    mark = bookmark(((0, 0, 0, 0), ZEROS), 0)
    keys = "%s %s" % (h(EKEY), h(CKEY))
    for line in ("read-save", "read-save 18446744073709551616", "read-save -", "read-save -1", "read-save 0 0", "read-save 0x0", "read-save ",
                 "read-resume", "read-resume " + keys, "read-resume %s -" % keys, "read-resume %s %s" % (keys, h(mark[:55])),
                 "read-resume %s %s00" % (keys, h(mark)), "read-resume %s %s %s" % (keys, h(mark), h(mark)),
                 "read-resume %s %s0" % (keys, h(mark)), "read-resume %sg %s" % (keys, h(mark)), "Read-save 0", "read-saved 0"):
        book.bad(line)
    saved(book, ((0, 0, 0, 0), ZEROS), 0)


def main(samples, folder):
    """Write the lines of this part."""
    book = Book("Lines for release images")
    book.how("python3 image.py SAMPLES FOLDER", "with the command `openssl` of version 3 (Debian 12, package openssl) and the folder of the samples")
    book.remark("No answer comes from a program of this project. The script puts blocks together by the layout of R26; their IVs and bodies "
                "come from `openssl enc` (ECB of one block, CBC without padding), their checks from `openssl mac` (CMAC). What a call "
                "answers to them, numbers, values and places, is stated case by case in the script, by the rule that the table names.")
    book.remark("The lines are one sequence: a reading or a receiver goes over many lines, so no line may be left out alone. The first lines "
                "for receivers and for readers ask before any start, so nothing that starts one may stand before them.")
    book.part("Receivers: blocks of edition 1 in any order", "Python keeps stores and maps.")
    for group in (nothing_received, receiver_starts, receiver_orders, receiver_refusals, receiver_every_byte, receiver_edition_2, receiver_keys,
                  receiver_bad_lines):
        group(book)
    book.part("Views of stored images", "Python cuts every byte shown from the image.")
    view_samples(book, samples)
    for group in (view_places, view_lengths, view_bad_lines):
        group(book)
    book.part("Writer and reader in edition 1", "Every `write` line here is of edition 1 except those that are refused with 13, and its "
              "previous check is not zeros: nothing may depend on it.")
    for group in (before_any_start, writer_sizes, writer_keys, writer_refusals, writer_orders, start_refusals, whole_images,
                  long_turns, asked_numbers, lent_lengths, output_sizes, turn_orders, nothing_lent, block_refusals,
                  first_refusals, block_orders, mixed_images, not_fixed, stops, fill_bytes, wrong_keys, every_byte,
                  bad_lines):
        group(book)
    book.part("Writer and reader in edition 2, and both editions mixed")
    for group in (chain_after_refused_start, chain_writer, chain_key_pairs, chain_images, mixed_builds, disorders, fixed_edition, odd_marks,
                  damaged_marks, nothing_moved, chain_orders, chain_wrong_keys, chain_every_byte):
        group(book)
    book.part("Bookmarks", "Python puts their bytes together; their checks come from `openssl mac`.")
    for group in (bookmarks_read, bookmarks_refused, bookmarks_of_no_reader, bookmark_bad_lines):
        group(book)
    book.write(folder)


if __name__ == "__main__":
    main(sys.argv[1], sys.argv[2])
