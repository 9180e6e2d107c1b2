"""Has a program play each case of a table, and holds what it writes and its status against what the table says.

    python3 tools/played.py PROGRAM TABLE

A case is a text and what is printed: behind `=>`, or below, indented by four blanks, line by line as it is. A line that begins with # is a comment:

    # A try finds it locked.
    spin 2 / 1 lock / 1 run / 2 try_lock / 2 run
        => 1 success / 2 interrupted / word 1 failed 0
    spin 65 => line 1: bad number

Beside `=>`, lines are parted by ` / `. In quotes stand the bytes themselves: "spin 1\\r\\n". `for N from 2 to 64 ({N} lock / {N} run)` repeats lines, and
in its braces stands any sum. A fault, as `line 1: bad number`, is written to standard error with all that comes after it, and the status is then 2;
else 0, or what the last line says: `status 4`. To standard error goes what is said beside an answer, too: `lost at line 7`, `left out on the way: ..`,
and what begins with `a call that`. Where of `sync-explore` nothing comes after it, what the program advises is not looked at.

Prints each case that comes out otherwise, and then how many there are. The status is 0 where none does. A table without a case is wrong.
"""

import ast
import re
import subprocess
import sys

REPETITION = re.compile(r"for N from (\d+) to (\d+) \(([^()]*)\)")
SUM = re.compile(r"\{([^{}]*)\}")
FAULT = re.compile(rb"^line \d+: .*", re.M | re.S)
STATUS = re.compile(rb"^status (\d+)\n\Z", re.M)
ASIDE = re.compile(rb"^(?:lost at line \d+|left out on the way: .*|a call that .*)\n", re.M)


def repeated(found):
    """The lines of a repetition."""
    first, last, lines = found.groups()
    return " / ".join(SUM.sub(lambda term: str(eval(term[1], {"N": number})), lines) for number in range(int(first), int(last) + 1))


def written(words):
    """The bytes that stand so beside a `=>`."""
    if words.startswith('"'):
        return ast.literal_eval(f"b{words}")
    return "".join(f"{line.strip()}\n" for line in REPETITION.sub(repeated, words).split(" / ")).encode()


def cases_in(table):
    """The cases of a table: the text as it stands there, and what is printed."""
    cases = []
    for line in table.splitlines():
        if line.startswith("    "):
            told = line[4:]
            cases[-1][1] += written(told[3:]) if told.startswith("=> ") else f"{told}\n".encode()
        elif line and not line.startswith("#"):
            text, _, told = line.partition(" => ")
            cases.append([text, written(told) if told else b""])
    return cases


def wanted_of(printed):
    """What a program is to come to, by what a table says is printed: its status, standard output and standard error."""
    fault = FAULT.search(printed)
    status = STATUS.search(printed)
    if fault:
        return 2, printed[: fault.start()], fault[0]
    return int(status[1]) if status else 0, ASIDE.sub(b"", STATUS.sub(b"", printed)), b"".join(ASIDE.findall(printed))


def played(program, text):
    """What a program comes to by a text."""
    crate = program.replace("-", "_") + "_main"
    run = subprocess.run([f"crates/{crate}/out/{crate}"], input=text, capture_output=True, check=False, timeout=60)
    return run.returncode, run.stdout, run.stderr


def main():
    program, table = sys.argv[1:]
    with open(table, encoding="utf-8") as lines:
        cases = cases_in(lines.read())
    if not cases:
        sys.exit("no case")
    wrong = 0
    for text, printed in cases:
        if not printed:
            sys.exit(f"no case, since nothing is printed: {text}")
        wanted = wanted_of(printed)
        found = played(program, written(text))
        if program == "sync-explore" and wanted[2].count(b"\n") == 1:
            found = (*found[:2], b"".join(found[2].splitlines(keepends=True)[:1]))
        if found != wanted:
            wrong += 1
            print(f"{text}: {found} and not {wanted}")
    print(f"{len(cases)} cases, {wrong} wrong")
    return 1 if wrong else 0


if __name__ == "__main__":
    sys.exit(main())
