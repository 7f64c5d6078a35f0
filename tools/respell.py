#!/usr/bin/env python3
"""Respells the repository's own definitions and lemmas, once, after the kit's port.py.

usage: python3 tools/respell.py      at the top of the repository, after port.py, with nothing else changed

words.txt beside this file has a line for each word: the old one and the new one. A word is turned wherever it stands whole in a
file of specs/ or proofs/, and in the clauses of src/ where it is not spelled as a Rust name could be. A word right behind a dot is
a member, and is turned only where words.txt marks the line with a third word, `member`.
The crate `bytes` has the name of a library of the kit, so it becomes `byte_lines`.
"""

import os
import re

HERE = os.path.dirname(os.path.realpath(__file__))
TOKEN = re.compile(r"(\.)?(?<![\w'\-])([\w'][\w'\-]*)")
COMMENT = re.compile(r"^\s*(--|//)")
RUST_NAME = re.compile(r"^[a-z][a-z0-9_]*$|^[A-Z][A-Za-z0-9]*$")


def read(path):
    with open(path, encoding="utf-8") as f:
        return f.read()


def words():
    turned, members = {}, set()
    for line in read(os.path.join(HERE, "words.txt")).splitlines():
        parts = line.split()
        turned[parts[0]] = parts[1]
        if parts[2:] == ["member"]:
            members.add(parts[0])
    return turned, members


def respell(text, turned, members, source):
    def one(match):
        dot, word = match.group(1) or "", match.group(2)
        if word not in turned or (dot and word not in members) or (source and RUST_NAME.match(word)):
            return match.group(0)
        return dot + turned[word]

    # prose has dashes of its own
    return "\n".join(line if COMMENT.match(line) else TOKEN.sub(one, line) for line in text.split("\n"))


def rename_crate(text):
    return re.sub(r"\bRattle\.bytes\.", "Rattle.byte_lines.", re.sub(r"\buse bytes::", "use byte_lines::", text))


def main():
    turned, members = words()
    for folder, dirs, files in os.walk("crates"):
        dirs[:] = [d for d in dirs if d != "out"]
        for name in sorted(files):
            path = os.path.join(folder, name)
            if name.endswith((".rt", ".antt")):
                old = read(path)
                new = rename_crate(respell(old, turned, members, name.endswith(".rt")))
                if new != old:
                    with open(path, "w", encoding="utf-8") as f:
                        f.write(new)
    old = read("crates.txt")
    with open("crates.txt", "w", encoding="utf-8") as f:
        f.write(re.sub(r"\bbytes\b", "byte_lines", old))
    os.rename("crates/bytes", "crates/byte_lines")


if __name__ == "__main__":
    main()
