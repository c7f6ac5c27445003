"""Readers of the packaged copies of the published vectors; ROOT is where the packages are unpacked (dpkg-deb -x)."""

import os
import re

CAVS = "usr/lib/python3/dist-packages/cryptography_vectors"
GO_AES = "usr/share/go-1.19/src/crypto/aes/aes_test.go"
CRYPTOPP = "usr/share/crypto++/TestVectors/aes.txt"
JOSE2GO = "usr/share/gocode/src/github.com/dvsekhvalnov/jose2go/aes/key_wrap_test.go"
CMAC_GOB = "usr/share/gocode/src/github.com/jacobsa/crypto/testing/cases/cmac.gob"


def text_of(root, path):
    """A packaged file as text."""
    with open(os.path.join(root, path), encoding="utf-8") as file:
        return file.read()


def cavs(root, path):
    """The records of one NIST CAVS file, in order: (section mark, fields), every field still text."""
    section, fields, records = "", {}, []
    for line in text_of(root, os.path.join(CAVS, path)).splitlines() + [""]:
        line = line.strip()
        if line.startswith("["):
            section = line.strip("[]")
        elif "=" in line and not line.startswith("#"):
            name, value = line.split("=", 1)
            if name.strip() == "COUNT" and fields:
                records.append((section, fields))
                fields = {}
            fields[name.strip()] = value.strip()
        elif line == "FAIL":
            fields["FAIL"] = ""
        elif not line and fields:
            records.append((section, fields))
            fields = {}
    return records


def go_bytes(text):
    """The numbers of the first Go byte list in the text."""
    body = re.search(r"\[\]byte\{(.*?)\}", text, re.S).group(1)
    return bytes(int(word, 0) for word in re.findall(r"0x[0-9a-f]+|\d+", body))


def go_byte_lists(text):
    """All Go byte lists in the text."""
    return [go_bytes(part) for part in re.findall(r"\[\]byte\{.*?\}", text, re.S)]


def fips197_schedules(root):
    """FIPS 197 appendix A: (section, key, all words joined), from the quotation in Go's test."""
    text = text_of(root, GO_AES)
    text = text[text.index("var keyTests"):text.index("func TestExpandKey")]
    found = []
    for part in re.split(r"// (?=A\.\d\.)", text)[1:]:
        words = re.search(r"\[\]uint32\{(.*?)\}", part, re.S).group(1)
        joined = b"".join(int(w, 16).to_bytes(4, "big") for w in re.findall(r"0x[0-9a-f]+", words))
        found.append((part[:3], go_bytes(part), joined))
    return found


def fips197_blocks(root):
    """FIPS 197 appendices B and C: (section, key, plaintext, ciphertext), from the quotation in Go's test."""
    text = text_of(root, GO_AES)
    text = text[text.index("var encryptTests"):text.index("func TestCipherEncrypt")]
    found = []
    for part in re.split(r"// Appendix ", text)[1:]:
        key, plain, cipher = go_byte_lists(part)
        found.append((part.split(". ")[0].split(".\n")[0], key, plain, cipher))
    return found


def sp800_38a(root):
    """SP 800-38A F.1 to F.4 without CFB1 and CFB8: (mode, key bits, key, iv, plaintext, ciphertext)."""
    fields, found = {}, []
    for line in text_of(root, CRYPTOPP).splitlines():
        name, _, value = line.partition(":")
        name, value = name.strip(), value.strip()
        if name == "AlgorithmType":
            fields = {}
        fields[name] = value
        label = re.match(r"F\.[1-4]\.\d+ (ECB|CBC|CFB128|OFB)-AES(\d+)\.Encrypt", fields.get("Comment", ""))
        if name == "Test" and label and "800-38A" in fields["Source"]:
            mode = label.group(1).replace("128", "").lower()
            values = [bytes.fromhex(fields.get(x, "")) for x in ("Key", "IV", "Plaintext", "Ciphertext")]
            found.append((mode, int(label.group(2)), *values))
    return found


def rfc3394(root):
    """RFC 3394 section 4: (section, key, key data, wrapped), from the quotation in jose2go's test."""
    found = []
    for part in re.split(r"//given ", text_of(root, JOSE2GO)):
        section = re.match(r"\(Section (4\.\d)\)", part)
        if section and "KeyWrap(key, kek)" in part:
            part = part[:part.index("//when")]
            lists = go_byte_lists(part)
            quoted = [bytes.fromhex(x) for x in re.findall(r"//([0-9A-F]{32,})", part)]
            if lists != quoted:
                raise ValueError("comment and list differ in section " + section.group(1))
            found.append((section.group(1), *lists))
    return found


def gob_number(data, at):
    """One unsigned number of Go's gob form: (number, place after it)."""
    if data[at] < 128:
        return data[at], at + 1
    size = 256 - data[at]
    return int.from_bytes(data[at + 1:at + 1 + size], "big"), at + 1 + size


def rfc4493_cases(root):
    """The cases made by RFC 4493's reference program: (key, message, check), from a gob list of three-field records."""
    with open(os.path.join(root, CMAC_GOB), "rb") as file:
        data = file.read()
    at = 0
    for _ in range(2):
        size, at = gob_number(data, at)
        at += size
    _, at = gob_number(data, at)
    _, at = gob_number(data, at)
    count, at = gob_number(data, at + 1)
    cases = []
    for _ in range(count):
        fields, place = [b"", b"", b""], -1
        step, at = gob_number(data, at)
        while step:
            place += step
            size, at = gob_number(data, at)
            fields[place], at = data[at:at + size], at + size
            step, at = gob_number(data, at)
        cases.append(tuple(fields))
    return cases
