"""Runs a program under each limit of memory from nothing to enough, by pages of 4 KiB.

    tools/sweep_memory.py PROGRAM TEXT OUTPUT

PROGRAM, which has to be built, reads the file TEXT. Under the smallest limits the system cannot start it. From the first under which it starts it
says `no memory`, ends with status 1 and writes nothing, or it writes what the file OUTPUT holds, and ends with status 0; and once it has done so it
does so under each larger limit. Prints what is wrong, or how many limits it found too small. The status is 0 where nothing is wrong.
"""

import resource
import subprocess
import sys

PAGE = 4096
# How many limits are tried beyond the first that is enough.
BEYOND = 64
# The largest limit that is tried, in pages.
MOST = 16384
# What a program answers where memory is refused.
REFUSED = (1, b"", b"no memory\n")


def run_under(pages, program, text):
    """The status, the output and the words of a run under this limit."""
    limit = pages * PAGE

    def set_limit():
        resource.setrlimit(resource.RLIMIT_AS, (limit, limit))

    with open(text, "rb") as reader:
        done = subprocess.run([program], stdin=reader, capture_output=True, timeout=60, preexec_fn=set_limit)
    return done.returncode, done.stdout, done.stderr


def main():
    name = sys.argv[1].replace("-", "_")
    program = f"crates/{name}_main/out/{name}_main"
    text = sys.argv[2]
    wanted = (0, open(sys.argv[3], "rb").read(), b"")
    small = 0
    enough = None
    for pages in range(256, MOST):
        try:
            answer = run_under(pages, program, text)
        except (OSError, subprocess.SubprocessError):
            continue
        if answer == wanted:
            enough = enough or pages
        elif enough:
            print(f"{pages} pages: enough was {enough}, and it answers {answer[0]}, {answer[2]!r}")
            return 1
        elif answer == REFUSED:
            small += 1
        elif small or answer[0] == 0:
            print(f"{pages} pages: it answers {answer[0]}, {answer[2]!r}")
            return 1
        if enough and pages >= enough + BEYOND:
            print(f"{small} limits are too small")
            return 0 if small else 1
    print("no limit is enough")
    return 1


if __name__ == "__main__":
    sys.exit(main())
