#!/usr/bin/env python3
"""Counts the places where the code of crates/*/src might take a newer form, point by point (docs/DESIGN-PASS.md).

    tools/places.py [--list] [CRATE..]

A place is a line, a function or a group of parameters that a rule below finds; whether a newer form is plainer there is
for a reader to say. With --list each place is printed with its file and line."""
import collections
import difflib
import pathlib
import re
import sys

ROOT = pathlib.Path(__file__).resolve().parent.parent

# What a line of code is found by, for the points that lines can tell.
LINES = {
    '1 a flag in a struct, a number for a refusal, a result told by bool or Option': re.compile(
        r'^\s*(pub(\(crate\))? )?\w+: bool,'
        r'|Result<\(\), u8>|Call\(u8\)|^(pub )?const \w+: u8 = \d+;|fn \w+(<R>)?\(\) -> u8'
        r'|-> io::Result<(bool|Option)|Option<Option<'),
    '3 a loop that counts an index or a number by hand': re.compile(
        r'\bfor \w+ in (\(?)[\w. ]*\.\.|\bwhile [^l].*<|[+-]= 1;|= \w+\.(wrapping|saturating)_add\(1\)'),
    '4 a conversion, comparison or printing by a function of its own': re.compile(
        r'\bfn (\w*named|number|number_in|words|reply_to|kind_of|permille_of|cell_of|read_side|same|least'
        r'|\w+_text|row_list|row_columns|wrong_count|opening|answer)\b'
        r'|println!\(rt; "[^"]*refused[^"]*number'),
    '6 an array of fixed length, a table by index, a count beside a list': re.compile(
        r'^\s*(pub(\(crate\))? )?\w+: \[.+; \w+\],|\.get\((i|node|index)\)|^\s*(pub )?(count|width): usize,|mut \w+ = \[.*; \w+\];'),
    '7 a match on which step to run, a dyn, a table of functions': re.compile(
        r'\bmatch (command|name|kind|measure|which|shown|step|act|call|\(kind, i\)|acts\[i\]|steps\[0\]|held\.measure|step_at\(.*)[^;]*\{$|\bdyn \w|\bfn\('),
}
SHAPE = '1 an enum with the shape of Option or Result'
TWINS = '2 functions of one shape'
FACTS = '5 a clause that stands in three functions or more'
GROUPS = '5 parameters that travel together through three functions or more'
PROOFS = '8 answers by hand'
ORDER = sorted([*LINES, SHAPE, TWINS, FACTS, GROUPS, PROOFS])

TOKEN = re.compile(r'"[^"]*"|b?\'[^\']+\'|[A-Za-z_]\w*|\d[\w.]*|->|=>|::|&&|\|\||[<>=!+\-*/]=|\S')
KEYWORDS = set('let mut if else match return for in while loop Some None Ok Err true false as Self self'.split())


def functions(text):
    """(line, name, signature with its clauses, body) of each function."""
    for found in re.finditer(r'^( *)(?:pub(?:\(crate\))? )?(?:const )?(?:extern "C" )?fn (\w+)', text, re.M):
        indent, name = found.group(1), found.group(2)
        opens = re.compile(rf'^{indent}\{{$|[^{{}}] \{{$|;$|\{{\}}$', re.M).search(text, found.end())
        if not opens:
            continue
        closes = re.compile(rf'^{indent}\}}$', re.M).search(text, opens.end())
        body = text[opens.end():closes.start()] if closes and opens.group().endswith('{') else ''
        yield text.count('\n', 0, found.start()) + 1, name, text[found.start():opens.start() + 1], body


def skeleton(body):
    return ' '.join(t if t in KEYWORDS or not re.match(r'[A-Za-z_"\d\'b]', t) else '#' for t in TOKEN.findall(body))


def alike(shape, other, near):
    """The same shape, or in one file nearly the same."""
    if shape == other:
        return True
    if not near or min(len(shape), len(other)) * 1.3 < max(len(shape), len(other)):
        return False
    return difflib.SequenceMatcher(None, shape, other, autojunk=False).ratio() > 0.8


def clauses(head):
    for kind, fact in re.findall(r'\b(requires|ensures)(?: \w+)? \{ (.*?) \}$', head, re.M | re.S):
        yield kind + ' ' + re.sub(r'\b(now|old|new|entry)\b', '_', ' '.join(fact.split()))


def parameters(head):
    inside = re.search(r'\((.*?)\)\s*(->|$|requires|ensures|where|\{)', head.split('requires')[0].split('ensures')[0] + ' $', re.S)
    text = inside.group(1) if inside else ''
    names = [' '.join(p.replace('mut ', '').replace('&', '').split()) for p in re.split(r',\s*(?![^<]*>)', text)]
    return [p for p in names if ':' in p]


def places(crates):
    found = collections.defaultdict(list)
    by_shape, by_fact, by_group = (collections.defaultdict(list) for _ in range(3))
    for crate in crates:
        for path in sorted((ROOT / 'crates' / crate / 'src').rglob('*.rt')):
            where, text = path.relative_to(ROOT), path.read_text()
            for number, line in enumerate(text.split('\n'), 1):
                if re.match(r'\s*(//|ghost|requires|ensures)', line):
                    continue
                for point, rule in LINES.items():
                    if rule.search(line):
                        found[point].append((where, number, line.strip()))
            for enum in re.finditer(r'^(?:pub(?:\(crate\))? )?enum (\w+).*?\{\n(.*?)^\}', text, re.M | re.S):
                arms = [a for a in re.findall(r'^    (\w+.*?),$', enum.group(2), re.M)]
                filled = [a for a in arms if re.search(r'[({]', a)]
                if len(arms) in (2, 3) and len(filled) == 1:
                    found[SHAPE].append((where, text.count('\n', 0, enum.start()) + 1, enum.group(1)))
            for number, name, head, body in functions(text):
                place = (where, number, name)
                shape = skeleton(body)
                if len(shape.split()) >= 20:
                    by_shape[shape].append(place)
                for fact in set(clauses(head)):
                    by_fact[fact].append(place)
                given = parameters(head)
                for size in range(2, 6):
                    for at in range(len(given) - size + 1):
                        by_group[tuple(given[at:at + size])].append(place)
        proofs = ROOT / 'crates' / crate / 'proofs'
        for path in sorted(proofs.rglob('Answers.antt')) if proofs.exists() else []:
            for number, line in enumerate(path.read_text().split('\n'), 1):
                if re.match(r'pub [\w-]+ : goal\.', line):
                    found[PROOFS].append((path.relative_to(ROOT), number, line.split(' : ')[0][4:]))
    shapes = [(shape.split(), place) for shape, group in by_shape.items() for place in group]
    for at, (shape, place) in enumerate(shapes):
        twins = sorted({other[2] for i, (o, other) in enumerate(shapes) if i != at and alike(shape, o, place[0] == other[0])})
        if twins:
            found[TWINS].append((*place[:2], f'{place[2]} as {", ".join(twins)}'))
    for fact, group in by_fact.items():
        if len(group) > 2:
            found[FACTS].append((*group[0][:2], f'{len(group)} functions: {fact[:120]}'))
    wide = {g: p for g, p in by_group.items() if len({x[2] for x in p}) > 2}
    for group, group_places in wide.items():
        inside = any(len(o) > len(group) and len(wide[o]) >= len(group_places) and any(
            o[i:i + len(group)] == group for i in range(len(o))) for o in wide)
        if not inside:
            found[GROUPS].append((*group_places[0][:2], f'{len(group_places)} functions: {", ".join(group)}'))
    return found


def main():
    words = sys.argv[1:]
    listed = '--list' in words
    crates = [w for w in words if w != '--list'] or sorted(p.name for p in (ROOT / 'crates').iterdir() if (p / 'src').is_dir())
    found = places(crates)
    for point in ORDER:
        print(f'{len(found[point]):5}  {point}')
        if listed:
            for where, number, what in found[point]:
                print(f'         {where}:{number}: {what}')


main()
