"""Two pictures of sync-draw, one above the other, each with its name: tools/beside.py ONE NAME OTHER NAME [WHAT], on standard output.

The row where the two part is lit in each. WHAT names it in the second. A page of it (tools/step_page.py) puts them side by side and goes through both.
"""

import difflib
import html
import re
import sys

HEAD = 34
GROUP = re.compile(r"<g><title>(.*?)</title>\n(.*?)</g>\n", re.DOTALL)


def parting(rows):
    """Where two runs part, as the number of a row in each: the first rows that are not the same, but for looks that one alone makes, and goes on."""
    for kind, start, end, at, to in difflib.SequenceMatcher(None, *rows, autojunk=False).get_opcodes():
        if kind != "equal" and not all(re.search(r": load.*, call goes on$", it) for it in (*rows[0][start:end], *rows[1][at:to])):
            return min(start, len(rows[0]) - 1), min(at, len(rows[1]) - 1)
    return None


def lit(picture, row, what):
    """With a light behind this row, and what is to be said of it."""
    group = [*GROUP.finditer(picture)][row]
    y = int(re.search(r'<text[^>]* y="(\d+)"', group[2])[1]) - 4
    boxes = re.findall(r'<rect class="(?:call|open)" x="(\d+)" y="(\d+)" width="(\d+)" height="(\d+)"', picture)
    party = int(re.search(r'<text[^>]* x="(\d+)"', group[2])[1])
    x, width = next((int(x), int(width)) for x, at, width, height in boxes if int(at) <= y <= int(at) + int(height) and int(x) <= party <= int(x) + int(width))
    light = f'<rect x="{x + 2}" y="{y - 11}" width="{width - 4}" height="22" rx="4" fill="#f59e0b" opacity=".35"></rect>\n'
    says = f'<text class="waiting end" x="{x + width - 8}" y="{y + 4}">{html.escape(what)}</text>\n' if what else ""
    return picture[: group.start()] + light + picture[group.start() : group.end() - len("</g>\n")] + says + "</g>\n" + picture[group.end() :]


def main(one, name, other, other_name, what=""):
    sys.stdout.reconfigure(encoding="utf-8")
    pictures = [open(it, encoding="utf-8").read() for it in (one, other)]
    sizes = [tuple(int(it) for it in re.search(r'width="(\d+)" height="(\d+)" role', picture).groups()) for picture in pictures]
    # Steps and lines have other numbers where one run has a row more.
    parts = parting([[re.sub(r"^.*?(?=party)", "", it[1]) for it in GROUP.finditer(picture)] for picture in pictures])
    width, height = max(it[0] for it in sizes), sum(HEAD + it[1] for it in sizes)
    print(f'<svg xmlns="http://www.w3.org/2000/svg" viewBox="0 0 {width} {height}" width="{width}" height="{height}" role="img">')
    print(f"<title>{html.escape(name)}, and {html.escape(other_name)}</title>")
    y = 0
    for picture, own, row, size, says in zip(pictures, (name, other_name), parts or (None, None), sizes, ("", what)):
        picture = picture if row is None else lit(picture, row, says)
        picture = re.sub(r"<title>.*?</title>", f"<title>{html.escape(own)}</title>", picture, count=1)
        print(f'<rect class="paper" x="0" y="{y}" width="{width}" height="{HEAD}"></rect>\n<text class="head" x="12" y="{y + 24}">{html.escape(own)}</text>')
        print(picture.replace("<svg ", f'<svg y="{y + HEAD}" ', 1), end="")
        y += HEAD + size[1]
    print("</svg>")


main(*sys.argv[1:])
