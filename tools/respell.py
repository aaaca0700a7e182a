#!/usr/bin/env python3
"""Brings the definitions and lemmas of this repository to today's spelling: usage: tools/respell.py, once, at the top, right after port.py.

A name that begins small and has capitals inside, as maxArity, is written in snake case, as max_arity, and so is one with dashes, as members-min.
Only names that the files of specs/ and the laws of proofs/ declare are turned, wherever they stand in .antt files, in contracts and in `ghost use`
lines; what Rattle makes of a function (labels of goals, steps) is turned with the proof files. A definition takes its name even where a function of
src/ has it; a law that would have the name of a definition or of a function ends in _lem. A name that would meet another is left, and said.
"""
import collections
import os
import re
import sys

NAME = r"[A-Za-z_][A-Za-z0-9_'₀₁₂₃₄₅₆₇₈₉-]*"
DECLARED = re.compile(
    rf"^[ ]*(?:(?:abbrev|unfoldable|opaque|record|data|pub|constructor)\s+)*({NAME}(?:[ ]+{NAME})*)(?:[ ]+[({{][^:\n]*:[^\n]*)?[ ]*:[ ]",
    re.M,
)
WORD = re.compile(rf"(?<![A-Za-z0-9_'₀-₉«]){NAME}")
# the words of the library and of Rattle that begin a name of ours, as the name they have now
LIBRARY = {"getD": "get_or", "getd": "get_or"}
# what no line declares by itself, and a definition and a law that would fall together
BY_HAND = {
    "allOnes": "all_ones",
    "jointOf": "joint_of",
    "leadBefore": "lead_before",
    "letterBefore": "letter_before",
    "listBefore": "list_before",
    "roundsIn": "rounds_in",
    "queryStays": "query_stays",
    "query-stays": "query_stays_lem",
    # what port.py made of a word of the library inside a name
    "get_d_window": "get_or_window",
}


def texts(ends):
    for folder, dirs, files in os.walk("crates"):
        dirs[:] = sorted(d for d in dirs if d != "out")
        for f in sorted(files):
            if f.endswith(ends):
                yield os.path.join(folder, f)


def read(path):
    with open(path, encoding="utf-8") as f:
        return f.read()


def of_function(path):
    return os.path.basename(path) in ("Proof.antt", "Answers.antt", "Invariants.antt")


def snake(part):
    if part in LIBRARY:
        return LIBRARY[part]
    if not part[:1].islower():
        return part
    return re.sub(r"(?<=[a-z0-9])([A-Z]+)(?![a-z])|([A-Z])", lambda m: "_" + (m[1] or m[2]).lower(), part).replace("__", "_")


def declared():
    """Every name that a file of specs/ or of laws declares, and which of them are definitions of specs/."""
    laws, words = set(), set()
    for p in texts(".antt"):
        if of_function(p):
            continue
        text = "\n".join(l.split(" -- ")[0] for l in read(p).split("\n") if not l.lstrip().startswith("--"))
        for m in DECLARED.finditer(text):
            for n in m[1].split():
                (words if "/specs/" in p or re.match(r"[ ]*(?:pub )?(?:abbrev|unfoldable|record|data)\b", m[0]) else laws).add(n)
    return laws, words


def turned(m, path, table, behind):
    if m[0] in table:
        return table[m[0]]
    # a law whose name is also that of a function of src/, whose labels and modules stand behind a dot
    if m[0] in behind and path.endswith(".antt") and m.string[m.start() - 1 : m.start()] != ".":
        return behind[m[0]]
    return m[0]


def main():
    laws, words = declared()
    everything = collections.Counter()
    for p in texts((".antt", ".rt")):
        for n in WORD.findall(read(p)):
            everything[n] += 1
    table = {}
    for n in sorted(laws | words):
        if n.startswith("_") or n in ("use", "mod", "module", "where"):
            continue
        new = "_".join(snake(p) for p in n.split("-"))
        if new != n:
            table[n] = new
    # A definition takes its name; a law that has it, or would get it, is the lemma of that name.
    taken = {table.get(w, w) for w in words}
    behind = {}
    for n in sorted(laws - words):
        new = table.get(n, n)
        if new in taken or (new != n and everything[new]):
            new += "_lem"
            if everything[new] or new in behind.values():
                print(f"left: {n} would meet {new}")
                table.pop(n, None)
                continue
        if new != n:
            if new.endswith("_lem"):
                table.pop(n, None)
            (behind if n not in table else table)[n] = new
    seen = collections.Counter(list(table.values()) + list(behind.values()))
    for o, w in list(table.items()):
        if seen[w] > 1:
            print(f"left: {o} would meet {w}")
            del table[o]
    table |= BY_HAND
    n = 0
    for p in texts((".antt", ".rt")):
        text = read(p)
        new = WORD.sub(lambda m: turned(m, p, table, behind), text)
        if new != text:
            n += 1
            with open(p, "w", encoding="utf-8") as f:
                f.write(new)
    print(f"respell: {len(table) + len(behind)} names in {n} files")


if __name__ == "__main__":
    sys.exit(main())
