#!/usr/bin/env python3
"""Tries the program from outside: tests/run.py PROGRAM

Runs the command lines of tests/commands and the shell's scripts of tests/shell, whose answers were worked out by hand,
and random scripts, whose answers a person gives who knows only the docs (tests/person.py). Its last line counts what
agreed. It ends with status 1 at the first difference, and shows it."""
import pathlib
import shlex
import subprocess
import sys
import tempfile

from person import Person
from scripts import Script

HERE = pathlib.Path(__file__).resolve().parent
RANDOM_SCRIPTS = 400


def differ(what, wanted, given):
    for at, (want, give) in enumerate(zip(wanted + ["(nothing)"], given + ["(nothing)"])):
        if want != give:
            sys.exit(f"tests/run.py: {what}, line {at + 1} of the answers\n  wanted: {want}\n  given:  {give}")
    sys.exit(f"tests/run.py: {what}: more answers than were wanted")


def run_command(program, words):
    """What a command line prints: lines of standard output, then those of standard error after '! ', then the status."""
    done = subprocess.run([program, *words], cwd=HERE / "data", capture_output=True, text=True, stdin=subprocess.DEVNULL)
    errors = [f"! {line}" for line in done.stderr.splitlines()]
    return done.stdout.splitlines() + errors + [f"= {done.returncode}"]


def try_commands(program):
    """Each file has command lines after '$ ', each with all that it prints, and its status after '= '."""
    count = 0
    for path in sorted((HERE / "commands").glob("*.txt")):
        for part in path.read_text().split("$ ripotyngue")[1:]:
            line, *wanted = part.rstrip("\n").split("\n")
            given = run_command(program, shlex.split(line))
            if given != wanted:
                differ(f"{path.name}: ripotyngue{line}", wanted, given)
            count += 1
    return count


def run_shell(program, lines, folder):
    text = "".join(line + "\n" for line in lines)
    done = subprocess.run([program, "shell"], cwd=folder, input=text, capture_output=True, text=True)
    if done.stderr or done.returncode != 0:
        sys.exit(f"tests/run.py: the shell ended with status {done.returncode}: {done.stderr}")
    return done.stdout.splitlines()


def same_answers(what, wanted, given):
    """Where a line is no command, what is wrong is said in the program's own words."""
    given = ["error: " if line.startswith("error: ") else line for line in given]
    if given != wanted:
        differ(what, wanted, given)
    return len(wanted)


def by_person(lines, read_file):
    person = Person(read_file)
    return [answer for line in lines for answer in person.answer(line)], person.listed


def try_shell(program):
    """Each file has lines for the shell after '> ', each with its answers. The person must give the same."""
    count = 0
    for path in sorted((HERE / "shell").glob("*.txt")):
        text = path.read_text().splitlines()
        lines = [line[2:] for line in text if line.startswith("> ")]
        wanted = [line for line in text if not line.startswith("> ")]
        count += same_answers(path.name, wanted, run_shell(program, lines, HERE / "data"))
        answers, _ = by_person(lines, lambda name: (HERE / "data" / name).read_bytes())
        same_answers(f"{path.name}, by the person", wanted, answers)
    return count


def try_random(program):
    count = listed = 0
    for seed in range(RANDOM_SCRIPTS):
        script = Script(seed)
        with tempfile.TemporaryDirectory() as folder:
            for name, data in script.files.items():
                (pathlib.Path(folder) / name).write_bytes(data)
            given = run_shell(program, script.lines, folder)
        wanted, timings = by_person(script.lines, script.files.__getitem__)
        count += same_answers(f"random script {seed}", wanted, given)
        listed += timings
    return count, listed


def main():
    if len(sys.argv) != 2:
        sys.exit("usage: tests/run.py PROGRAM")
    program = str(pathlib.Path(sys.argv[1]).resolve())
    commands, answers = try_commands(program), try_shell(program)
    random_answers, listed = try_random(program)
    print(f"{commands} command lines, {answers} answers of the shell worked out by hand, {random_answers} answers to "
          f"{RANDOM_SCRIPTS} random scripts, in which all paths were listed for {listed} timings: all agree")


if __name__ == "__main__":
    main()
