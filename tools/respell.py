#!/usr/bin/env python3
"""Brings the repository's own definitions and lemmas to today's spelling: words in snake case, types and modules in camel case, ' for a prime.

usage: tools/respell.py [--dry]    at the top of the repository, once, after the language's own port script

Functions of src/, exported names, strings, inputs and outputs keep their names. A name that would fall together with another one keeps its
dash, or gets `_of` behind it. What was renamed is printed, a line each: old, new.
"""

import os
import re
import sys

DRY = "--dry" in sys.argv
OWN = {line.split(":")[0].strip().split(" ")[0] for line in open("crates.txt", encoding="utf-8") if ":" in line and not line.startswith("#")}
TOKEN = re.compile(r"[^\s(){}\[\],;.\u29fe\"@]+")
STRING = re.compile(r'"(?:[^"\\]|\\.)*"')
DEFINED = re.compile(r"^\s*(?:(?:pub|abbrev|unfoldable|record|data)\s+)*([^\s(){}\[\],;.:=|\u03bb?]+)(?:\s+[({][^:]*:[^)}]*[)}])*\s+:\s")
LOCAL = re.compile(r"(?:\blet\s+|\u03bb\s*\(?|[({])((?:[^\s(){}\[\],;.:=\u03bb]+\s+)*[^\s(){}\[\],;.:=\u03bb]+)\s*(?::|=|\.)")
IMPORT = re.compile(r"^\s*(?:ghost )?use ([^\s{;]+?)(?:\.\{([^}]*)\})?(?: as ([^\s;]+))?;?\s*$")


def files(*ends):
    for folder, dirs, names in os.walk("crates"):
        dirs[:] = sorted(d for d in dirs if d != "out")
        for name in sorted(names):
            if name.endswith(ends):
                yield os.path.join(folder, name)


def read(path):
    with open(path, encoding="utf-8", newline="") as f:
        return f.read()


def generated(path):
    """A proof that walks the code: its names are those of goals."""
    return path.endswith("/Proof.antt")


def wanted(name):
    """The name in today's spelling."""
    new = name.replace("\u2032", "'")
    if re.match(r"[a-z]", new):
        new = re.sub(r"(?<=[a-z0-9'])([A-Z]+)(?=[A-Z][a-z])", lambda m: "_" + m.group(1).lower(), new)
        new = re.sub(r"(?<=[a-z0-9'])([A-Z])", lambda m: "_" + m.group(1).lower(), new)
        new = re.sub(r"([A-Z])", lambda m: m.group(1).lower(), new)
        new = re.sub(r"(?<=[a-z0-9'])-(?=[a-z0-9])", "_", new)
    return new


def main():
    texts = {p: read(p) for p in files(".antt", ".rt")}
    own, foreign, tokens, imported = set(), set(), {}, {}
    for path, text in texts.items():
        bare = re.sub(r"--.*", "", STRING.sub('""', text)) if path.endswith(".antt") else re.sub(r"//.*", "", STRING.sub('""', text))
        tokens[path] = set()
        for line in bare.split("\n"):
            m = IMPORT.match(line)
            if m:
                for n in (m.group(2) or "").split(",") + [m.group(3) or ""]:
                    tokens[path] |= set(n.split())
            else:
                tokens[path] |= {t.group(0) for t in TOKEN.finditer(line) if t.start() == 0 or line[t.start() - 1] != "."}
        imported[path] = set()
        for line in bare.split("\n"):
            m = IMPORT.match(line)
            if m:
                parts = m.group(1).split(".")
                mine = parts[0] == "Rattle" and len(parts) > 1 and parts[1] in OWN
                names = [n.strip() for n in (m.group(2) or "").split(",") if n.strip()]
                for n in names:
                    said = n.split(" as ")
                    imported[path].add(said[-1])
                    if not mine:
                        foreign.add(said[0])
                        if len(said) == 1:
                            foreign.add(said[-1])
                        else:
                            own.add(said[-1])
                    elif len(said) > 1:
                        own.add(said[-1])
                if m.group(3):
                    own.add(m.group(3))
                continue
            if path.endswith(".antt") and not generated(path):
                d = DEFINED.match(line)
                if d:
                    own.add(d.group(1))
                for d in LOCAL.finditer(line):
                    own.update(d.group(1).split())
                # names declared together: 'enc chk : ...' in records, and clauses of where
                w = re.match(r"^\s+(?:pub )?([a-z][^\s(){}\[\],;.:=\u03bb]*)\s.*=\s", line)
                if w:
                    own.add(w.group(1))
    # what the source names keeps its spelling
    source = set()
    for path in texts:
        if path.endswith(".rt"):
            source |= {t for t in re.findall(r"[A-Za-z_][A-Za-z0-9_]*", STRING.sub('""', texts[path]))}
    own -= foreign
    moved = {n: wanted(n) for n in own if wanted(n) != n and re.match(r"[A-Za-z\u03b1-\u03c9]", n)}
    everything = set().union(*tokens.values())
    # names that fall together
    clauses = {}
    for path in texts:
        if path.endswith(".rt"):
            # only a parameter, a field, a constant or a local name takes a word of a clause, and a function does not
            bare = STRING.sub('""', re.sub(r"//.*", "", texts[path]))
            clauses[path] = set(re.findall(r"([A-Za-z_][A-Za-z0-9_]*)\s*:(?!:)", bare)) | set(re.findall(r"\b(?:let|let mut|for|const|static) ([A-Za-z_][A-Za-z0-9_]*)", bare)) | set(re.findall(r"Prelude\.\{([^}]*)\}", bare))
    chosen = {}

    def together(old, new):
        for path, ts in tokens.items():
            if old not in ts:
                continue
            seen = clauses[path] if path.endswith(".rt") else ts
            if new in seen:
                return path
            for other in ts:
                if other != old and chosen.get(other) == new:
                    return path
        return None

    fallen = []
    order = sorted(moved, key=lambda n: ("-" in n, n))
    for old in order:
        new = moved[old]
        where = together(old, new)
        if where is None:
            chosen[old] = new
            continue
        dashed = "-".join(wanted(part) for part in old.split("-"))
        for other in [dashed] if "-" in old else [new + "_lem" if new.endswith("_of") else new + "_of"]:
            if together(old, other) is None and other not in everything:
                chosen[old] = other
                break
        fallen.append((old, chosen.get(old, old), where))
    # a dashed name and one in camel case of the same module must not become one, also where no file names both: globally unique for top-level names
    for old, new in sorted(chosen.items()):
        print(f"{old}\t{new}")
    for old, new, where in fallen:
        print(f"fell together: {old} -> {new} ({where})", file=sys.stderr)
    if DRY:
        return
    for path, text in texts.items():
        def turn(m):
            return chosen.get(m.group(0), m.group(0))

        out = []
        for line in text.split("\n"):
            mark = "--" if path.endswith(".antt") else "//"
            code, sep, comment = line, "", ""
            if path.endswith(".antt"):
                k = re.search(r"(?:^|\s)--(?=\s|$)", line)
                if k:
                    code, comment = line[: k.start()], line[k.start() :]
            elif "//" in line and '"' not in line:
                i = line.index("//")
                code, comment = line[:i], line[i:]
            pieces = STRING.split(code)
            strings = STRING.findall(code)
            if path.endswith(".antt"):
                pieces = [TOKEN.sub(turn, p) for p in pieces]
            else:
                pieces = [re.sub(r"[A-Za-z_][A-Za-z0-9_]*\u2032?", lambda m: chosen.get(m.group(0), m.group(0)) if (re.search(r"[A-Z]", m.group(0)[1:]) and m.group(0)[0].islower()) else m.group(0), p) for p in pieces]
            code = "".join(a + b for a, b in zip(pieces, strings + [""]))
            comment = re.sub(r"[A-Za-z][A-Za-z0-9]*", lambda m: chosen.get(m.group(0), m.group(0)) if (re.search(r"[a-z][A-Z]", m.group(0)) and m.group(0)[0].islower()) else m.group(0), comment)
            out.append(code + comment)
        new = "\n".join(out)
        if new != text:
            with open(path, "w", encoding="utf-8", newline="") as f:
                f.write(new)


main()
