#!/usr/bin/env python3
"""Brings the repository's own definitions and lemmas to snake case, after the kit's port.py, once: `python3 tools/port_names.py` at the top.

A name that a file of specs/ or proofs/ declares (but for the answers of a Proof.antt) and that begins with a small letter loses capitals and
dashes, in every .antt and .rt file and in every must-fail edit: `maxColumns` is `max_columns`, `null-byte` is `null_byte`. Where a file would
then hold two things under one name, the one with dashes, a lemma, gets `_lem`. Names that Rattle makes, and names of src/, stay.
"""

import collections
import os
import re

NAME = r"[^\s(){};,@\"«».]+"
WORDS = re.compile(r"(?<![^\s(){};,@\"«».])" + NAME)
DEFINED = re.compile(rf"(?:(?:abbrev|unfoldable|pub)\s+)*({NAME})(?: \{{[^{{}}]*\}})* :(?: |$)")
MEMBER = re.compile(rf"  +(?:pub )?({NAME}) :(?: |$)")
# Names that would meet another in some file, and the variable that one of them would hide.
BY_HAND = {"topFlipped": "flipped_top", "row-bytes": "row_bytes", "start-state": "start_state"}
LOCAL = {"crates/plates/proofs/FoundRows.antt": {"row-bytes": "rows_are_bytes"}}


def texts():
    for folder, dirs, files in os.walk("crates"):
        dirs[:] = sorted(d for d in dirs if d != "out")
        for name in sorted(files):
            if name.endswith((".antt", ".rt", ".edit")):
                path = os.path.join(folder, name)
                with open(path, encoding="utf-8") as file:
                    yield path, file.read()


def declared(path, text):
    if not path.endswith(".antt") or path.endswith("/Proof.antt"):
        return
    for line in text.split("\n"):
        if line.startswith(("use ", "pub use ", "--")):
            continue
        found = DEFINED.match(line) or MEMBER.match(line)
        if found and found[1][:1].islower():
            yield found[1]


def snake(name):
    return re.sub(r"(?<=[a-z0-9])([A-Z])", lambda m: "_" + m[0].lower(), name).replace("-", "_").replace("′", "'")


def renamings(files):
    names = {name for path, text in files.items() for name in declared(path, text)}
    to = {name: snake(name) for name in names if snake(name) != name}
    olds = collections.defaultdict(set)
    for name, new in to.items():
        olds[new].add(name)
    held = {path: set(WORDS.findall(text)) for path, text in files.items() if path.endswith(".antt")}
    given = {}
    for name, new in to.items():
        others = (olds[new] - {name}) | {new}
        beside = [path for path, words in held.items() if name in words and words & others]
        given[name] = BY_HAND.get(name) or (new + "_lem" if "-" in name and beside else new)
    return given


def clauses_only(text):
    """The spans of a .rt file that are antt: `ghost use` items, clauses, and `ghost` fields."""
    for found in re.finditer(r"ghost use [^;]*;", text):
        yield found.span()
    for found in re.finditer(r"\b(?:requires|ensures|ghost)\*?(?: \w+)?:? \{", text):
        depth, at = 1, found.end()
        while depth and at < len(text):
            depth += {"{": 1, "}": -1}.get(text[at], 0)
            at += 1
        yield found.end(), at - 1


def main():
    files = dict(texts())
    to = renamings(files)
    for path, text in files.items():
        here = LOCAL.get(path, {})
        turn = lambda text: WORDS.sub(lambda m: here.get(m[0]) or to.get(m[0], m[0]), text)
        if path.endswith(".rt"):
            new, last = "", 0
            for start, end in sorted(clauses_only(text)):
                new += text[last:start] + turn(text[start:end])
                last = end
            new += text[last:]
        elif path.endswith(".edit") and re.search(r"^file: src/", text, re.M):
            new = re.sub(r"(?<=\{).*(?=\})", lambda m: turn(m[0]) if re.search(r"requires|ensures|ghost", text) else m[0], text)
        else:
            new = turn(text)
        if new != text:
            with open(path, "w", encoding="utf-8") as file:
                file.write(new)
    print(f"port_names: {len(to)} names")


if __name__ == "__main__":
    main()
