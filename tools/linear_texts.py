"""Plays texts of n, 2 n and 4 n lines, and wants a program's time and memory to grow no faster than these.

    tools/linear_texts.py [--figures] [PROGRAM ..]

By default the three programs, which have to be built. Most texts have n short lines, one has n lines of 100000 steps, and one a fault after n
lines. Time is that of the processor, the least of several runs; memory is the most that the program was seen to have in them. Of both what a text
of its first lines takes is taken off. From n to 4 n either may grow to MOST_GROWTH times as much: four is linear, sixteen the square. Prints what
is wrong, and then how many growths were looked at; with --figures also what was measured. The status is 0 where nothing is wrong.
"""

import os
import subprocess
import sys
import tempfile

# Each program, and how many times n it is given: the first is the quickest by far.
PROGRAMS = {"sync-play": 20, "sync-trace": 1, "sync-draw": 1}
MOST_GROWTH = 9
RUNS = 3
# What is too little to be measured: seconds of a processor, and bytes.
LEAST_TIME = 0.02
LEAST_MEMORY = 4 << 20


def repeated(head, lines):
    """A text that begins so, and goes on with these lines again and again: of so many lines."""

    def text(many):
        body = "".join(f"{line}\n" for line in lines)
        return head + body * (many // len(lines))

    return text


def faulty(many):
    return repeated("semaphore 1 0\n", ["1 try_wait", "1 run"])(many) + "1 go\n"


# The text that has a fault.
FAULTY = "a fault at the end"
# Each text by its name: n, and what gives it.
TEXTS = {
    "calls at a mutex": (50_000, repeated("mutex 1\n", ["1 lock", "1 run", "1 unlock", "1 run"])),
    "refusals at a semaphore": (50_000, repeated("semaphore 1 0\n", ["1 try_wait", "1 run"])),
    "additions at an atomic": (50_000, repeated("atomic_u64 1 0\n", ["1 fetch_add 1", "1 run"])),
    "blank lines": (1_000_000, repeated("mutex 1\n", [""])),
    FAULTY: (50_000, faulty),
    "steps": (5, repeated("spin 2\n1 lock\n1 run\n2 lock\n", ["2 go 100000"])),
}


def memory_of(pid):
    """The most bytes that a running process has had. What `wait4` says of it counts from what its parent has."""
    try:
        with open(f"/proc/{pid}/status") as lines:
            return sum(int(line.split()[1]) << 10 for line in lines if line.startswith("VmHWM:"))
    except (FileNotFoundError, ProcessLookupError):
        return 0


def run(program, text):
    """The status, the seconds and the bytes of one run."""
    with tempfile.TemporaryFile() as lines:
        lines.write(text)
        lines.seek(0)
        child = subprocess.Popen([program], stdin=lines, stdout=subprocess.DEVNULL, stderr=subprocess.DEVNULL)
    had = 0
    ended = 0
    while not ended:
        had = max(had, memory_of(child.pid))
        ended, status, used = os.wait4(child.pid, os.WNOHANG)
    child.returncode = os.waitstatus_to_exitcode(status)
    return child.returncode, used.ru_utime + used.ru_stime, had


def cost(program, text, wanted):
    """The seconds and the bytes that a run takes, which has to end with this status."""
    statuses, times, bytes_had = zip(*(run(program, text.encode()) for _ in range(RUNS)))
    if set(statuses) != {wanted}:
        sys.exit(f"{program} ended with status {statuses}")
    return min(times), max(bytes_had)


def wrong_with(program, name, figures):
    """What is wrong with the growth of one text's cost, if anything is."""
    crate = program.replace("-", "_") + "_main"
    path = f"crates/{crate}/out/{crate}"
    many, text = TEXTS[name]
    many *= PROGRAMS[program]
    wanted = 2 if name == FAULTY else 0
    none = cost(path, text(0), wanted)
    times, bytes_had = zip(*(cost(path, text(part * many), wanted) for part in (1, 2, 4)))
    times = [max(LEAST_TIME, time - none[0]) for time in times]
    bytes_had = [max(LEAST_MEMORY, had - none[1]) for had in bytes_had]
    if figures:
        print(f"{name}, n is {many}", *(f"{time:.2f} s" for time in times), *(f"{had >> 20} MB" for had in bytes_had), sep=", ")
    for what, (first, _, last) in (("time", times), ("memory", bytes_had)):
        if last > MOST_GROWTH * first:
            return f"{name}: the {what} grows from {first:.3g} to {last:.3g}"


def main():
    figures = "--figures" in sys.argv
    programs = [word for word in sys.argv[1:] if word != "--figures"] or list(PROGRAMS)
    wrong = 0
    for program in programs:
        for name in TEXTS:
            found = wrong_with(program, name, figures)
            if found:
                print(f"{program}, {found}")
                wrong += 1
    print(f"{len(programs) * len(TEXTS)} growths, {wrong} wrong")
    sys.exit(wrong > 0)


main()
