"""Plays each text of a table of texts/rust, and holds what comes of it against what the table says of this port.

    python3 tools/rust_texts.py TABLE

The table says itself how it is written. Prints each text that comes out otherwise, and then how many there are. The status is 0 where none
does. A table without a text is wrong, and so is one that excuses a difference by what is no row of docs/DIFFERENCES.md.
"""

import sys
import zlib

from played import played, written


def cases_in(table):
    """The texts of a table, each with the rows that excuse it and what it says of the port."""
    text = ""
    for line in table.splitlines():
        if line.startswith("    "):
            by, _, told = line[4:].partition("=> ")
            if by != "rust ":
                yield text, by.strip(), told
        elif not line.startswith("#"):
            text = line


def port(text, with_steps):
    """What the port makes of a text, as a table says it."""
    _, answers, fault = played("sync-play", text)
    lines = (answers or fault).decode("latin-1").splitlines()
    if with_steps:
        lines.append(f"steps {zlib.crc32(played('sync-trace', text)[1]):08x}")
    return " / ".join(lines)


def main():
    with open("docs/DIFFERENCES.md", encoding="utf-8") as page:
        rows = page.read()
    with open(sys.argv[1], encoding="utf-8") as lines:
        cases = list(cases_in(lines.read()))
    if not cases:
        sys.exit("no text")
    wrong = 0
    for text, by, told in cases:
        missing = [row for row in by.split(", ") if by and f"`{row}`" not in rows]
        found = port(written(text), " / steps " in told)
        if missing or found != told:
            wrong += 1
            print(f"{text}: {missing or found} and not {told}")
    print(f"{len(cases)} cases, {wrong} wrong")
    return 1 if wrong else 0


sys.exit(main())
