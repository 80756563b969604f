#!/usr/bin/env python3
"""Brings this repository's own definitions and lemmas to today's spelling: words in snake case.

usage: python3 tools/respell.py          at the top, once, right after port.py
       python3 tools/respell.py --look   names only: what would be renamed, and names that would fall together

Renamed is what specs/*.antt and proofs/*.antt declare (definitions, lemmas, fields, local lemmas): inDomain becomes in_domain,
lt-or-le becomes lt_or_le. A declared name is renamed wherever it stands as a word: in antt files, in the clauses and `ghost use` lines of
.rt files, and between backticks in comments and in README.md and docs/. Names of Rattle's library and goals that Rattle names keep their
spelling: a name behind a dot is renamed only where a record of this repository has it as a field.
"""
import glob
import re
import sys

WORD = r"[^\s(){}\[\],;.:`\"|]+"
DECLARED = re.compile(r"^\s*(?:abbrev |unfoldable |private |pub )*(" + WORD + r")(?:\s+\{[^}]*\})?\s+:(?:\s|$)")
HEAD = re.compile(r"^(\s*)(?:pub )?record\b")
# A lemma that would have its definition's name, or that of one of the library's words in the same file, gets `_lem`.
APART = {
    "check-at": "check_at_lem",
    "content-in": "content_in_lem",
    "few-ahead": "few_ahead_lem",
    "first-wrong": "first_wrong_lem",
    "forced-at": "forced_at_lem",
    "in-domain": "in_domain_lem",
    "mends-half": "mends_half_lem",
    "new-sheet": "new_sheet_lem",
    "one-lot": "one_lot_lem",
    "or-zero": "or_zero_lem",
    "pair-row": "pair_row_lem",
    "pair-word": "pair_word_lem",
    "plan-lines": "plan_lines_lem",
    "repair-half": "repair_half_lem",
    "room-at": "room_at_lem",
    "row-at": "row_at_lem",
    "solve-table": "solve_table_lem",
    "tie-held": "tie_held_lem",
    "ties-ok": "ties_ok_lem",
    "word-of": "word_of_lem",
    "bit-and": "bit_and_lem",
    "bit-or": "bit_or_lem",
    "every_of": "every_of_lem",
    "numbers_of": "numbers_of_lem",
    "keeps_half": "keeps_half_lem",
}


def read(path):
    with open(path, encoding="utf-8") as f:
        return f.read()


def snake(name):
    if name in APART:
        return APART[name]
    name = re.sub(r"(?<=[a-z0-9])([A-Z])", lambda m: "_" + m.group(1).lower(), name) if name[0].islower() else name
    return re.sub(r"-(?=\w)", "_", name).lower() if name[0].islower() else name


def declared():
    """All declared names, and among them the fields of records."""
    names, fields = set(), set()
    for path in glob.glob("crates/*/specs/*.antt") + glob.glob("crates/*/proofs/*.antt"):
        depth = None
        for line in read(path).split("\n"):
            head = HEAD.match(line)
            if head:
                depth = len(head.group(1))
                continue
            if depth is not None and line.strip() and len(line) - len(line.lstrip()) <= depth:
                depth = None
            found = DECLARED.match(line)
            if found and not line.lstrip().startswith("--"):
                names.add(found.group(1))
                if depth is not None:
                    fields.add(found.group(1))
    return names, fields


def renamer(names, fields, skip=set()):
    new = {n: snake(n) for n in names if n[0].islower() and snake(n) != n}

    def one(m):
        word = m.group(0)
        if word not in new or word in skip:
            return word
        start = m.start()
        if start and m.string[start - 1] == "." and word not in fields:
            return word
        return new[word]

    return new, one


def foreign(text, crates):
    """The words that a file imports from Rattle's library."""
    words = set()
    for path, list_ in re.findall(r"^(?:ghost )?use (\S+)\.\{([^}]*)\}", text, re.M):
        parts = path.split(".")
        if parts[0] != "Rattle" or parts[1] not in crates:
            words |= {w.split(" as ")[-1].strip() for w in list_.split(",")}
    return words


def spans(line, comment, one):
    """The line with words renamed: all of it, but in a comment only what stands between backticks."""
    cut = line.find(comment)
    code, said = (line, "") if cut < 0 else (line[:cut], line[cut:])
    return re.sub(WORD, one, code) + ticks(said, one)


def ticks(text, one):
    return re.sub(r"`[^`]*`", lambda m: re.sub(WORD, one, m.group(0)), text)


def main(argv):
    names, fields = declared()
    new, one = renamer(names, fields)
    back = {}
    for n in names:
        back.setdefault(new.get(n, n), set()).add(n)
    for n, olds in sorted(back.items()):
        if len(olds) > 1:
            print("fall together:", n, sorted(olds))
    if argv == ["--look"]:
        for n in sorted(new):
            print(n, new[n])
        return
    crates = {path.split("/")[1] for path in glob.glob("crates/*/")}
    for path in glob.glob("crates/*/specs/**/*.antt", recursive=True) + glob.glob("crates/*/proofs/**/*.antt", recursive=True):
        text = read(path)
        one = renamer(names, fields, foreign(text, crates))[1]
        turned = "\n".join(spans(line, "-- ", one) for line in text.split("\n"))
        if turned != text:
            open(path, "w", encoding="utf-8").write(turned)
    one = renamer(names, fields)[1]
    for path in glob.glob("crates/*/src/*.rt"):
        clause = False
        lines = []
        for line in read(path).split("\n"):
            bare = line.strip()
            if bare.startswith(("requires", "ensures", "ghost ")):
                clause = True
            lines.append(spans(line, "// ", one) if clause else ticks(line, one) if bare.startswith("//") else line)
            if clause and bare.endswith(("}", ";")):
                clause = False
        open(path, "w", encoding="utf-8").write("\n".join(lines))
    for path in ["README.md"] + glob.glob("docs/*.md"):
        text = read(path)
        open(path, "w", encoding="utf-8").write(ticks(text, one))


if __name__ == "__main__":
    main(sys.argv[1:])
