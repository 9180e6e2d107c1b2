"""Breaks the texts of examples/ at random, from a fixed seed, and has the programs play each.

    tools/broken_texts.py [HOW_MANY [PROGRAM ..]]

By default 100000 texts and the three programs, which have to be built. No program may crash, hang or end with another status than 0 or 2; a fault
names a line of the text, in words of docs/TEXT.md, to which all but sync-play add that line and a sentence; and all programs say the same of a text. Prints what is wrong, and then how many texts were
played. The status is 0 where nothing is wrong.
"""

import glob
import multiprocessing
import random
import re
import subprocess
import sys

PROGRAMS = ["sync-play", "sync-trace", "sync-draw"]
FAULTS = (
    "no object|bad line|bad number|no party|busy|holding|no hold|idle|waiting|not waiting|step limit"
)
FAULT = re.compile(rf"line ([0-9]+): ({FAULTS})\n")
SEED = 20261123

TEXTS = [open(text, "rb").read() for text in sorted(glob.glob("examples/*.txt"))]
LINES = sorted({line for text in TEXTS for line in text.splitlines()})
WORDS = sorted({word for line in LINES for word in line.split()})
ODD = [
    b"", b" ", b"\t", b"\r", b"\n", b"\r\n", b"\0", b"\xef\xbb\xbf", b"\xff", b"#", b"-", b"-1", b"0", b"64", b"65", b"100000", b"100001",
    b"18446744073709551615", b"18446744073709551616", b"340282366920938463463374607431768211456", b"0" * 40 + b"1", b"go", b"run", b"abort", b"wait", b"some 1", b"none",
]


def cut(rng, text):
    return text[: rng.randrange(len(text) + 1)]


def put_in(rng, text):
    at = rng.randrange(len(text) + 1)
    return text[:at] + rng.choice(ODD) + text[at:]


def take_out(rng, text):
    at = rng.randrange(len(text) + 1)
    return text[:at] + text[at + rng.randrange(8) :]


def turn_a_byte(rng, text):
    at = rng.randrange(len(text) + 1)
    return text[:at] + bytes([rng.randrange(256)]) + text[at + 1 :]


def turn_a_word(rng, text):
    words = re.split(rb"([ \n]+)", text)
    words[rng.randrange(0, len(words), 2)] = rng.choice(WORDS + ODD)
    return b"".join(words)


def turn_a_line(rng, text):
    lines = text.split(b"\n")
    lines[rng.randrange(len(lines))] = rng.choice(LINES)
    return b"\n".join(lines)


def mix_lines(rng, text):
    lines = text.split(b"\n")
    rng.shuffle(lines)
    return b"\n".join(lines)


def repeat_lines(rng, text):
    lines = text.split(b"\n")
    at = rng.randrange(len(lines))
    return b"\n".join(lines[:at] + lines[at : at + 3] * rng.randrange(1, 40) + lines[at:])


def add_a_text(rng, text):
    return text + rng.choice(TEXTS)


WAYS = [cut, put_in, take_out, turn_a_byte, turn_a_word, turn_a_word, turn_a_line, turn_a_line, mix_lines, repeat_lines, add_a_text]


def broken(number):
    """The text of this number, which is always the same."""
    rng = random.Random(SEED * 1_000_000 + number)
    text = rng.choice(TEXTS)
    for _ in range(rng.randrange(1, 5)):
        text = rng.choice(WAYS)(rng, text)
    return text


def said_of(program, text):
    """The program's status, and what it says on standard error, without what it advises."""
    done = subprocess.run([f"crates/{program.replace('-', '_')}_main/out/{program.replace('-', '_')}_main"], input=text, capture_output=True, timeout=60)
    said = done.stderr
    if program in ("sync-trace", "sync-draw") and done.returncode == 2:
        said = without_advice(text, said)
    return done.returncode, said.decode("utf-8", "replace")


def without_advice(text, said):
    """The fault's line, where the text's own line and a sentence follow it; else all that was said."""
    fault = re.match(rb"line ([0-9]+): .*\n", said)
    if not fault:
        return said
    lines = re.split(rb"\r?\n", text) + [b""]
    line = lines[min(int(fault[1]), len(lines)) - 1]
    advice = said[fault.end() :]
    return fault[0] if re.fullmatch(re.escape(repeated(line)) + rb"\n[ -~]+\n", advice) else said


def repeated(line):
    """What is repeated of a line: 200 bytes at most, a tab as a blank, and each that a terminal may take for more than a character by its number."""
    shown = b"".join(b"%c" % byte if 32 <= byte < 127 else b"\\x%02x" % byte for byte in line[:200].replace(b"\t", b" "))
    return shown + (b".." if len(line) > 200 else b"")


def wrong_with(text, said):
    """What is wrong with a program's status and words."""
    status, words = said
    if status == 0:
        return f"it played, and said {words!r}" if words else None
    if status != 2:
        return f"it ended with status {status}, and said {words!r}"
    fault = FAULT.fullmatch(words)
    if not fault:
        return f"it said {words!r}"
    lines = text.count(b"\n") + (not text.endswith(b"\n"))
    if not 1 <= int(fault[1]) <= max(lines, 1):
        return f"it said {words!r} of {lines} lines"


def judge(task):
    number, programs = task
    text = broken(number)
    try:
        said = [said_of(program, text) for program in programs]
    except subprocess.TimeoutExpired as late:
        return f"text {number}: {late}"
    for program, what in zip(programs, said):
        wrong = wrong_with(text, what)
        if wrong:
            return f"text {number}, {program}: {wrong}"
        if what != said[0]:
            return f"text {number}: {programs[0]} and {program} say {said[0]} and {what}"


def main():
    many = int(sys.argv[1]) if len(sys.argv) > 1 else 100_000
    programs = sys.argv[2:] or PROGRAMS
    wrong = 0
    with multiprocessing.Pool() as pool:
        for found in pool.imap_unordered(judge, ((number, programs) for number in range(many)), 64):
            if found:
                print(found)
                wrong += 1
    print(f"{many} broken texts, {wrong} wrong")
    sys.exit(wrong > 0)


if __name__ == "__main__":
    main()
