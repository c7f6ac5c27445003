"""Makes the sample keys, file and images, and the input of two programs' tests: python3 make.py, in this folder.

The cipher is that of the Python package `cryptography`: no byte comes from a program of this project.
"""

from pathlib import Path

from cryptography.hazmat.primitives.ciphers import Cipher, algorithms, modes
from cryptography.hazmat.primitives.cmac import CMAC

# Counting bytes, so that nobody takes them for keys of an installed cabinet.
ENCRYPTION_KEY = bytes(range(16))
CHECK_KEY = bytes(range(16, 32))

RELEASE = 7
COUNT = 6
LINE = b"Sample release 7 of a dock cabinet's firmware.\n"
PAYLOAD = (LINE * 60)[:5 * 480 + 123]
# Built again: as long, and under the same release number.
AGAIN = PAYLOAD.replace(b"firmware.", b"firmware!")


def encrypted(mode, data):
    """The data in that mode of AES under the encryption key."""
    maker = Cipher(algorithms.AES(ENCRYPTION_KEY), mode).encryptor()
    return maker.update(data) + maker.finalize()


def check(message):
    """The check of a message under the check key."""
    maker = CMAC(algorithms.AES(CHECK_KEY))
    maker.update(message)
    return maker.finalize()


def block(number, payload, edition, previous):
    """Block `number` of a sample image; in edition 2 its check covers the check before it."""
    header = b"".join(value.to_bytes(4, "big") for value in (number, COUNT, RELEASE))
    header += len(payload).to_bytes(2, "big") + (2 if edition == 2 else 0).to_bytes(2, "big")
    vector = encrypted(modes.ECB(), header)
    front = header + encrypted(modes.CBC(vector), payload.ljust(480, b"\0"))
    return front + check(front + previous if edition == 2 else front)


def image_of(payload, edition):
    """The whole image of a payload."""
    image, previous = b"", bytes(16)
    for number in range(COUNT):
        image += block(number, payload[480 * number:480 * number + 480], edition, previous)
        previous = image[-16:]
    return image


def main():
    """Writes the files beside this one, and what the listing's and the release program's tests read."""
    here = Path(__file__).resolve().parent
    keys = ENCRYPTION_KEY + CHECK_KEY
    (here / "keys").write_bytes(keys)
    (here / "file").write_bytes(PAYLOAD)
    for name, edition in (("image", 1), ("image-2", 2)):
        whole = image_of(PAYLOAD, edition)
        half = len(whole) // 2
        (here / name).write_bytes(whole)
        # Its size is right: the room was reserved, and the second half never came.
        (here / (name + "-cut")).write_bytes(whole[:half].ljust(len(whole), b"\0"))
    # Each block is right in its own build.
    (here / "image-2-mixed").write_bytes(image_of(PAYLOAD, 2)[:half] + image_of(AGAIN, 2)[half:])
    image = image_of(PAYLOAD, 1)
    # The first block once more behind the last.
    (here.parent / "crates/listing/stdin").write_bytes(keys + image + image[:512])
    (here.parent / "crates/release/data/keys").write_bytes(keys)
    (here.parent / "crates/release/data/image").write_bytes(image)


main()
