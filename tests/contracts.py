"""Every public function has a contract on its result, a row in docs/contracts.md, and at least two must-fail edits.

A function with a `requires` must be marked 'inner' in its row: it is shared among the crates, and no caller outside sees it. Every file
that README.md and docs/ name is there. Prints what is lacking, and last 'N passed, M failed', a count over the public functions, the
rows and the documents.
"""
import glob
import os
import re
import sys

FUNCTION = re.compile(r'^\s*pub\s+(?:const\s+)?(?:unsafe\s+)?(?:extern\s+"C"\s+)?fn\s+(\w+)', re.M)
IMPL = re.compile(r"^impl(?:<[^>]*>)?\s+(\w+)[^{}]*\{(.*?)^\}", re.M | re.S)
# What stands before the braces of a clause: 'ensures {', 'ensures name {', 'requires* {'.
CLAUSE = re.compile(r"\b(requires|ensures)\*?(\s+\w+)?$")
ROW = re.compile(r"^\| `(\w+::[\w:]+)` \|(.*)\|$", re.M)


def header(text, at):
    """The text of a function from `at` to the brace that opens its body."""
    depth, i = 0, at
    while i < len(text):
        if text[i] == "{":
            if depth == 0 and not CLAUSE.search(text[at:i].rstrip()):
                break
            depth += 1
        elif text[i] == "}":
            depth -= 1
        i += 1
    return text[at:i]


def public_functions(root):
    """The full name and the header of each public function of the repository."""
    for path in sorted(glob.glob(f"{root}/crates/*/src/**/*.rt", recursive=True)):
        crate = os.path.relpath(path, f"{root}/crates").split(os.sep)[0]
        text = re.sub(r"//[^\n]*", "", open(path, encoding="utf-8").read())
        spans = [(m.start(), m.end(), m.group(1)) for m in IMPL.finditer(text)]
        for m in FUNCTION.finditer(text):
            owner = [name for start, end, name in spans if start < m.start() < end]
            yield "::".join([crate] + owner + [m.group(1)]), header(text, m.start())


def edits_of(row, crate, root):
    """The must-fail edits that a row names and that exist in the function's crate."""
    names = re.findall(r"`([\w]+)`", row.split("|")[-1])
    return [n for n in names if os.path.exists(f"{root}/crates/{crate}/must-fail/{n}.edit")], names


def missing_files(root, document):
    """The files that a document names in backquotes and that are not there; a bare name may stand in any crate."""
    there = {os.path.basename(p) for p in glob.glob(f"{root}/crates/**/*.*", recursive=True)}
    for name in sorted(set(re.findall(r"`([\w./-]+\.(?:antt|rt|c|h|md|py))`", open(document, encoding="utf-8").read()))):
        places = [f"{root}/{name}", f"{root}/crates/{name}", f"{os.path.dirname(document)}/{name}"]
        if not any(os.path.exists(p) for p in places) and not ("/" not in name and name in there):
            yield name


def main():
    root = os.path.join(os.path.dirname(os.path.abspath(__file__)), "..")
    rows = dict(ROW.findall(open(f"{root}/docs/contracts.md", encoding="utf-8").read()))
    passed, lacking, seen = 0, [], set()
    for name, head in public_functions(root):
        seen.add(name)
        wrong = []
        row = rows.get(name, "")
        if not re.search(r"\bensures\b", head):
            wrong.append("no ensures")
        if name not in rows:
            wrong.append("no row in docs/contracts.md")
        if re.search(r"\brequires\b", head) and "inner" not in row:
            wrong.append("a requires, and its row does not say that it is inner")
        if name in rows:
            there, named = edits_of(row, name.split("::")[0], root)
            if there != named:
                wrong.append("names edits that do not exist: " + ", ".join(sorted(set(named) - set(there))))
            if len(there) < 2:
                wrong.append("fewer than two must-fail edits")
        if wrong:
            lacking.append(f"{name}: " + "; ".join(wrong))
        else:
            passed += 1
    for name in sorted(set(rows) - seen):
        lacking.append(f"{name}: docs/contracts.md has a row, and there is no such public function")
    for document in [f"{root}/README.md"] + sorted(glob.glob(f"{root}/docs/**/*.md", recursive=True)):
        missing = list(missing_files(root, document))
        if missing:
            lacking.append(f"{os.path.relpath(document, root)} names files that are not there: " + ", ".join(missing))
        else:
            passed += 1
    for line in lacking:
        print(line)
    print(f"{passed} passed, {len(lacking)} failed")
    sys.exit(1 if lacking else 0)


main()
