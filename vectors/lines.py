"""Console lines with their expected answers, gathered in groups and written as stdin, stdout and NOTES.md.

`python3 lines.py ROOT CRATE` makes the lines of every script and joins them to CRATE/stdin and CRATE/stdout, and each script's page
here: ROOT is the folder of the unpacked packages, CRATE is crates/console."""

import os
import subprocess
import sys
import tempfile

HERE = os.path.dirname(os.path.abspath(__file__))
# The order of the scripts in crates/console, the newest first. The last line of blocks.py has no line feed.
SCRIPTS = ("wide", "image", "ccm", "saes", "wrap", "modes", "check", "blocks")
PACKAGES = ("fetch each package (`apt-get download NAME`), unpack it into one folder (`dpkg-deb -x FILE ROOT`), then "
            "`python3 SCRIPT ROOT FOLDER`.")
RULES = ("R and E numbers and readings are those of docs/REQUIREMENTS.md, numbers of refusals those of docs/REFUSALS.md. Each input line has "
         "exactly one answer line.")


def h(data):
    """Bytes as the console writes them: lower case hex, or - for the empty string."""
    return data.hex() if data else "-"


def filler(size, start=0xA5):
    """What the lent output holds before a call: no two neighbouring bytes are equal."""
    return bytes((start + 7 * i) & 0xFF for i in range(size))


def counting(size):
    """The bytes 00, 01, 02 and so on, for keys and texts whose value does not matter."""
    return bytes(i & 0xFF for i in range(size))


def laid_over(result, out):
    """The lent output after a call: the result in front, every byte past it as it was."""
    return result + out[len(result):]


class Book:
    """Lines and answers in order, each in the group opened last."""

    def __init__(self, title):
        self.title = title
        self.remarks = ["To make the files again: " + PACKAGES, RULES]
        self.parts = [("", "", [])]

    def how(self, command, needs):
        """How a script is run that needs no package of vectors."""
        self.remarks[0] = "To make the files again: `%s`, %s." % (command, needs)

    def part(self, title, text=""):
        """Open a part, which has a heading and a table of its own."""
        self.parts.append((title, text, []))

    def group(self, what, source):
        """Open a group: what its lines show, and where their answers come from."""
        self.parts[-1][2].append((what, source, []))

    def add(self, line, answer):
        """One input line and its one answer line, in the group opened last."""
        if "\n" in line or "\n" in answer:
            raise ValueError("a line feed inside a line")
        self.parts[-1][2][-1][2].append((line, answer))

    def bad(self, line):
        """A line outside the console's form."""
        self.add(line, "?")

    def remark(self, text):
        """A paragraph for the head of NOTES.md."""
        self.remarks.append(text)

    def pairs(self):
        """All lines with their answers, in order."""
        return [pair for _, _, groups in self.parts for _, _, pairs in groups for pair in pairs]

    def notes(self):
        """The text of NOTES.md: the remarks, then for each part a table with one row a group."""
        rows = ["# " + self.title, ""]
        for text in self.remarks:
            rows += [text, ""]
        first = 1
        for title, text, groups in self.parts:
            if not groups:
                continue
            rows += ["## " + title, ""] if title else []
            rows += [text, ""] if text else []
            rows += ["| lines | count | what | answers from |", "|---|---|---|---|"]
            for what, source, pairs in groups:
                last = first + len(pairs) - 1
                rows.append("| %d-%d | %d | %s | %s |" % (first, last, len(pairs), what, source))
                first = last + 1
            rows.append("")
        rows += ["%d lines in all." % (first - 1), ""]
        return "\n".join(rows)

    def write(self, folder, open_end=False):
        """Write the three files; open_end leaves the last input line without its line feed."""
        pairs = self.pairs()
        text = "".join(line + "\n" for line, _ in pairs)
        if open_end:
            text = text[:-1]
        os.makedirs(folder, exist_ok=True)
        put(folder, "stdin", text.encode("latin-1"))
        put(folder, "stdout", "".join(answer + "\n" for _, answer in pairs).encode("latin-1"))
        put(folder, "NOTES.md", self.notes().encode("utf-8"))
        print("%s: %d lines" % (folder, len(pairs)))


def put(folder, name, data):
    """Write one file whole."""
    with open(os.path.join(folder, name), "wb") as file:
        file.write(data)


def made(name, root, folder):
    """The lines and the answers of one script, and its page, or None. wide.py prints both and has a page written by hand."""
    script = [sys.executable, os.path.join(HERE, name + ".py")]
    if name == "wide":
        return [subprocess.run(script + more, capture_output=True, check=True).stdout for more in ([], ["answers"])] + [None]
    source = {"image": [os.path.join(HERE, "..", "samples")], "saes": []}.get(name, [root])
    subprocess.run(script + source + [folder], check=True)
    found = []
    for part in ("stdin", "stdout", "NOTES.md"):
        with open(os.path.join(folder, part), "rb") as file:
            found.append(file.read())
    return found


def main(root, crate):
    """Write the console's lines, their answers and the pages."""
    lines, answers = [], []
    for name in SCRIPTS:
        with tempfile.TemporaryDirectory() as folder:
            line, answer, page = made(name, root, folder)
        lines.append(line)
        answers.append(answer)
        if page is not None:
            put(HERE, name + ".md", page)
    put(crate, "stdin", b"".join(lines))
    put(crate, "stdout", b"".join(answers))


if __name__ == "__main__":
    main(sys.argv[1], sys.argv[2])
