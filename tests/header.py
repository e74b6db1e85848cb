#!/usr/bin/env python3
"""Compares include/ripotyngue.h with what the door exports: tests/header.py

Reads each exported function of crates/door/src, each struct that crosses, the numbers of the refusals and the marks for
none, and says where the header declares another function, another parameter, another member, or another number. It ends
with status 1 where it does. Its last line counts what agreed."""
import pathlib
import re
import sys

ROOT = pathlib.Path(__file__).resolve().parent.parent

# each struct that crosses: its crate, and its name in the header
STRUCTS = {
    "Answer": ("held", "ripotyngue_answer"),
    "HeldGraph": ("held", "ripotyngue_graph"),
    "EarlyTicks": ("held", "ripotyngue_early_ticks"),
    "EarlyStagedTicks": ("held", "ripotyngue_early_staged_ticks"),
    "Ticks": ("measure", "ripotyngue_ticks"),
    "StagedTicks": ("measure", "ripotyngue_staged_ticks"),
    "AnnotatedRow": ("delay", "ripotyngue_delay"),
    "LiveArc": ("graph", "ripotyngue_live_arc"),
    "ArcSlot": ("graph", "ripotyngue_private_arc"),
    "TimeSlot": ("graph", "ripotyngue_private_time"),
    "TimingGraph": ("graph", "ripotyngue_private_graph"),
    "Line": ("sheet", "ripotyngue_line"),
    "NodeEntry": ("sheet", "ripotyngue_node"),
}
# each number of the header: the crate, and where its sources have it
CONSTANTS = {
    "NO_BYTES": ("reader", r"FileFault::NoBytes => (\d+)"),
    "TOO_LONG": ("reader", r"FileFault::TooLong => (\d+)"),
    "NAMES_LINE": ("reader", r"FileFault::NamesWrong => (\d+)"),
    "VALUE_LINE": ("reader", r"FileFault::ValueWrong => (\d+)"),
    "END_LINE": ("reader", r"FileFault::EndFollowed => (\d+)"),
    "OUT_OF_RANGE": ("graph", r"Refusal::OutOfRange => (\d+)"),
    "NOT_RISING": ("graph", r"Refusal::NotRising => (\d+)"),
    "FULL": ("graph", r"Refusal::Full => (\d+)"),
    "NOT_LIVE": ("graph", r"Refusal::NotLive => (\d+)"),
    "IN_SET": ("graph", r"Refusal::InSet => (\d+)"),
    "NO_PATH": ("graph", r"Refusal::NoPath => (\d+)"),
    "NO_DELAY": ("timing", r"TimeRefusal::SourceFault\(_\) => (\d+)"),
    "DELAY_RANGE": ("timing", r"TimeRefusal::OutOfRange\(_\) => (\d+)"),
    "WRONG_LENGTH": ("timing", r"TimeRefusal::WrongLength => (\d+)"),
    "TOO_FEW_LINES": ("timing", r"TimeRefusal::TooFewLines => (\d+)"),
    "BROKEN_LINK": ("sheet", r"TraceRefusal::BrokenLink => (\d+)"),
    "SHORT_LIST": ("sheet", r"TraceRefusal::ShortList => (\d+)"),
    "NOT_MADE": ("held", r"const NOT_MADE: u8 = (\d+)"),
    "TRIAL_OPEN": ("held", r"const TRIAL_OPEN: u8 = (\d+)"),
    "NO_TRIAL": ("held", r"const NO_TRIAL: u8 = (\d+)"),
    "NO_NODE": ("sheet", r"const BLANK: Line = Line \{[^}]* node: (\d+)"),
    "NO_ARC": ("sheet", r"const BLANK: Line = Line \{[^}]* back_arc: (\d+)"),
    "NO_LINE": ("sheet", r"const BLANK: Line = Line \{[^}]* back_line: (\d+)"),
    "MOST_LINES": ("sheet", r"self\.lines\.len\(\) <= (\d+)"),
    "NODES": ("graph", r"starts: \[TimeSlot; (\d+)\]"),
    "ARCS": ("graph", r"arcs: \[ArcSlot; (\d+)\]"),
}
NUMBERS = {"u8": "uint8_t", "u16": "uint16_t", "u32": "uint32_t", "u64": "uint64_t", "i32": "int32_t", "bool": "bool"}


def without_comments(text):
    return re.sub(r"//[^\n]*|/\*.*?\*/", "", text, flags=re.S)


def sources(crate):
    return "\n".join(without_comments(path.read_text()) for path in sorted((ROOT / "crates" / crate / "src").glob("*.rt")))


def in_c(kind):
    """The C type of a value."""
    return NUMBERS[kind] if kind in NUMBERS else STRUCTS[kind][1]


def parameter_in_c(kind):
    """The C types of a parameter: a slice is a pointer and a length."""
    const = "" if kind.startswith("&mut ") else "const "
    inner = re.sub(r"^&(mut )?", "", kind)
    if inner.startswith("["):
        return [f"{const}{in_c(inner.strip('[]'))} *", "size_t"]
    if kind.startswith("&"):
        return [f"{const}{in_c(inner)} *"]
    return [in_c(kind)]


def exported():
    """What each exported function answers and takes, in C's types."""
    form = r'#\[unsafe\(no_mangle\)\]\s*pub extern "C" fn (\w+)\(([^)]*)\)(?: -> (\w+))?'
    functions = {}
    for name, parameters, answer in re.findall(form, sources("door")):
        kinds = [part.split(":")[1].strip() for part in parameters.split(",") if part.strip()]
        functions[name] = [in_c(answer) if answer else "void"] + [c for kind in kinds for c in parameter_in_c(kind)]
    return functions


def member(kind, name):
    """A member of a struct, in C's types."""
    array = re.fullmatch(r"\[(\w+); (\d+)\]", kind)
    return f"{in_c(array[1])} {name}[{array[2]}]" if array else f"{in_c(kind)} {name}"


def crossing():
    """The members of each struct that crosses, in C's types."""
    structs = {}
    for rust, (crate, c) in STRUCTS.items():
        body = re.search(rf"#\[repr\(C\)\]\n(?:#\[[^\n]*\]\n)*pub struct {rust} \{{(.*?)\n\}}", sources(crate), re.S)
        if not body:
            sys.exit(f"tests/header.py: crates/{crate} has no struct {rust} in C's layout")
        fields = re.findall(r"^    (?:pub(?:\(crate\))? )?(?!ghost )(\w+): ([^\n]*),$", body[1], re.M)
        structs[c] = [member(kind, name) for name, kind in fields]
    return structs


def header():
    """The header's text, with its constants as numbers and its macro written out."""
    text = without_comments((ROOT / "include" / "ripotyngue.h").read_text()).replace("\\\n", " ")
    for name, number in re.findall(r"(RIPOTYNGUE_\w+) = (\d+)", text):
        text = re.sub(rf"\[{name}\]", f"[{number}]", text)
    macro = re.search(r"#define RIPOTYNGUE_MEASURE\(M\)([^\n]*)\n", text)
    text = text.replace(macro[0], "")
    return re.sub(r"^RIPOTYNGUE_MEASURE\((\w+)\)$", lambda use: macro[1].replace("##M", use[1]), text, flags=re.M)


def spaced(words):
    return re.sub(r"\s*\*\s*", " * ", re.sub(r"\s+", " ", words)).strip()


def declared(text):
    functions = {}
    for answer, name, parameters in re.findall(r"^\s*(\w+) (ripotyngue_\w+)\(([^)]*)\);", text, re.M):
        functions[name] = [answer] + [spaced(re.sub(r"\w+\s*$", "", part)) for part in parameters.split(",")]
    return functions


def defined(text):
    structs = {}
    for body, name in re.findall(r"typedef struct \{(.*?)\} (\w+);", text, re.S):
        members = []
        for kind, names in re.findall(r"(\w+) ([^;]*);", body):
            members += [f"{kind} {each.strip()}" for each in names.split(",")]
        structs[name] = members
    return structs


def numbers():
    """The header's numbers, as the crates have them. An accepted call answers 0."""
    found = {"RIPOTYNGUE_ACCEPTED": "0"}
    for name, (crate, where) in CONSTANTS.items():
        number = re.search(where, sources(crate))
        if not number:
            sys.exit(f"tests/header.py: crates/{crate} does not say {name}")
        found[f"RIPOTYNGUE_{name}"] = number[1]
    return found


def compare(what, wanted, given):
    for name in sorted(wanted.keys() | given.keys()):
        want, give = wanted.get(name), given.get(name)
        if want != give:
            sys.exit(f"tests/header.py: {what} {name}\n  of the crates: {want}\n  of the header: {give}")
    return len(wanted)


def main():
    text = re.sub(r";\s*(?=ripotyngue_answer )", ";\n", header())
    functions = {name: [spaced(each) for each in kinds] for name, kinds in exported().items()}
    if not functions:
        sys.exit("tests/header.py: crates/door exports no function")
    agreed = compare("the function", functions, declared(text)) + compare("the struct", crossing(), defined(text))
    agreed += compare("the number", numbers(), dict(re.findall(r"(RIPOTYNGUE_\w+) = (\d+)", text)))
    print(f"{agreed} functions, structs and numbers agree")


main()
