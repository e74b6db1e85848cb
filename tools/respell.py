#!/usr/bin/env python3
"""Respells this repository's own definitions and lemmas: words in snake case, types and facts in upper camel case.

usage: python3 tools/respell.py [--names] [FOLDER]

Run it once, in a tree that the toolchain's port.py has just turned. It goes over the .antt and .rt files and the
must-fail edits of FOLDER/crates (FOLDER is the current folder where none is given), and changes nothing but names that
the tree's own specs/ and proofs/ define. Names that Rattle makes (goals and steps), Rust code, strings and comments
stay. With --names it only prints old and new names. It ends with 1 where two names of one file would fall together.
"""
import os
import re
import sys

TOKEN = re.compile(r"(?<![\w'\-])[A-Za-z][\w']*(?:-[\w']+)*(?![\w'\-])")
DEFINED = re.compile(
    r"^\s*(?:(?:abbrev|pub|unfoldable|record|data) )*"
    r"([A-Za-z][\w']*(?:-[\w']+)*)\s*(?:[({].*)?:(?!:)"
)
BARE = re.compile(r"^\s*(?:abbrev )?(?:pub )?(?:unfoldable )?(?:record|data) ([A-Za-z][\w']*(?:-[\w']+)*)")
CONTINUED = re.compile(r"^\s*(?:(?:abbrev|pub|unfoldable) )*([A-Za-z][\w']*(?:-[\w']+)*)\s*:\s*$")
GOAL = re.compile(r"^\s*(?:(?:abbrev|pub) )*([A-Za-z][\w']*(?:-[\w']+)*)\s*:\s*goal\.")
MADE = re.compile(r"^use Rattle\.\w+\.proofs\.\S*\.(?:Goals|Given)\.\{([^}]*)\}")
FIELD = re.compile(r"^\s*pub ([A-Za-z][\w']*(?:-[\w']+)*)\s*:")
MEMBER = re.compile(r"^\s*ghost (?:invariant )?([a-z][\w']*)\s*:")

# Where the plain rule would give a name that means something else already.
CHOSEN = {
    "notAfter": "not_later",
    "timeRow": "row_of_time",
    "arcRow": "row_of_arc",
    "number-of": "refusal_number",
    "record-from": "record_from_lem",
    "same_length": "same_length_lem",
    "get_or-map": "get_or_map",
    "re-set": "set_again",
}


def respelled(name):
    if name in CHOSEN:
        return CHOSEN[name]
    if name[0].isupper():
        if "-" not in name:
            return name
        return "".join(part[:1].upper() + part[1:] for part in name.split("-"))
    plain = name.replace("-", "_")
    return re.sub(r"(?<=[a-z0-9])([A-Z])", lambda m: "_" + m.group(1).lower(), plain)


def files(root):
    for folder, dirs, names in os.walk(os.path.join(root, "crates")):
        dirs[:] = sorted(d for d in dirs if d != "out")
        for name in sorted(names):
            if name.endswith((".antt", ".rt", ".edit")):
                yield os.path.join(folder, name)


def read(path):
    with open(path, encoding="utf-8") as f:
        return f.read()


def defined(root):
    """Old and new names, and which are fields. A lemma that would have a function's name gets _lem."""
    names, fields, functions, stated = set(), set(), set(), set()
    for path in files(root):
        text = read(path)
        if path.endswith(".rt"):
            functions.update(re.findall(r"\bfn (\w+)", text))
            for line in text.splitlines():
                m = MEMBER.match(line)
                if m:
                    names.add(m.group(1))
                    fields.add(m.group(1))
                    stated.add(m.group(1))
            continue
        if not path.endswith(".antt"):
            continue
        goals = made(text)
        for line in text.splitlines():
            if line.lstrip().startswith("--") or GOAL.match(line):
                continue
            m = DEFINED.match(line) or BARE.match(line) or CONTINUED.match(line)
            if m and m.group(1) not in goals:
                names.add(m.group(1))
                if "/specs/" in path:
                    stated.add(m.group(1))
            m = FIELD.match(line)
            if m and m.group(1) not in goals:
                fields.add(m.group(1))
    turned = {}
    for name in names:
        new = respelled(name)
        if "-" in name and new in functions and name not in stated:
            new += "_lem"
        if new != name:
            turned[name] = new
    return turned, fields


def made(text):
    """The names in a proof file that Rattle made."""
    found = set()
    for line in text.splitlines():
        m = GOAL.match(line)
        if m:
            found.add(m.group(1))
        m = MADE.match(line)
        if m:
            found.update(n.strip() for n in m.group(1).split(","))
    return found


def is_answer(path):
    return os.path.basename(path) in ("Answers.antt", "Invariants.antt", "Choices.antt", "Proof.antt")


def turn_piece(piece, turned, fields, skip, answer):
    def new(m):
        name = m.group(0)
        if name in skip or name not in turned:
            return name
        before = piece[m.start() - 1] if m.start() else ""
        if answer and before == "." and name not in fields:
            return name
        return turned[name]

    return TOKEN.sub(new, piece)


def turn_line(line, turned, fields, skip, answer, comment):
    """Everything but strings and the comment at the end; in a comment, words between backticks."""
    out, rest = [], line
    pattern = re.compile(r'"(?:[^"\\]|\\.)*"|' + re.escape(comment) + r".*")
    at = 0
    for m in pattern.finditer(line):
        if m.group(0).startswith(comment) and comment == "--" and m.start() and not line[m.start() - 1].isspace():
            continue
        out.append(turn_piece(line[at:m.start()], turned, fields, skip, answer))
        kept = m.group(0)
        if kept.startswith(comment):
            kept = re.sub(r"`[^`]*`", lambda b: turn_piece(b.group(0), turned, fields, skip, False), kept)
        out.append(kept)
        at = m.end()
        if kept.startswith(comment):
            break
    out.append(turn_piece(line[at:], turned, fields, skip, answer))
    return "".join(out)


def turn(path, turned, fields):
    text = read(path)
    if path.endswith(".edit"):
        return "\n".join(
            turn_line(x, turned, fields, set(), False, "//") if x.startswith(("old:", "new:")) else x
            for x in text.split("\n")
        )
    comment = "//" if path.endswith(".rt") else "--"
    answer = is_answer(path)
    skip = made(text) if path.endswith(".antt") else set()
    return "\n".join(turn_line(x, turned, fields, skip, answer, comment) for x in text.split("\n"))


def together(path, turned):
    """Names of one file that differ now and would not after."""
    seen = {}
    for name in set(TOKEN.findall(read(path))):
        seen.setdefault(turned.get(name, name), set()).add(name)
    return {new: olds for new, olds in seen.items() if len(olds) > 1}


def main():
    words = sys.argv[1:]
    only_names = "--names" in words
    words = [w for w in words if w != "--names"]
    root = words[0] if words else "."
    turned, fields = defined(root)
    if only_names:
        for old in sorted(turned):
            print(old, turned[old])
        return 0
    fallen = False
    for path in files(root):
        for new, olds in sorted(together(path, turned).items()):
            fallen = True
            print(f"fall together in {path}: {', '.join(sorted(olds))} as {new}", file=sys.stderr)
        text = turn(path, turned, fields)
        if text != read(path):
            with open(path, "w", encoding="utf-8") as f:
                f.write(text)
    return 1 if fallen else 0


if __name__ == "__main__":
    raise SystemExit(main())
