"""Draws the run of the Rust crate that ends beside a free lock, from its trace: python3 conform/picture.py TRACE <PICTURE

TRACE is what `conform/out/rust` prints of examples/rwwriter-last-look.txt. PICTURE is what `sync-draw` makes of the same text up to the counter's load, with
`2 go 1` as its last line, after which the two part. Each row of the trace has to be the picture's, in order. What is only the crate's own is drawn in: the load with which its
`unlock` begins, and that the writer waits.
"""

import re
import sys

ROW = 24
# Where what is drawn of a row stands, and how far down a box goes.
PLACES = re.compile(r'\b(y|y1|y2|cy)="(\d+)"')
GROUP = re.compile(r"<g><title>(.*?)</title>\n.*?</g>\n", re.DOTALL)


def rows_of(trace):
    """The trace's rows as titles of a picture, in which the call goes on or waits as there."""
    for line in trace.splitlines()[1:]:
        found = re.match(r"(\S+) +(?:(\d+) +)?(\d+) +(\d+) +(\S.*?)  +(\d+ counter \d+) +(\S+|\d+ \S+)  +(\S.*)$", line)
        step, times, at, party, act, words, holds, call = found.groups()
        count = f", {times} times" if times else ""
        yield f"step {step}{count}, line {at}, party {party}: {act}; word {words}, holds {holds}, call {call}"


def act_of(title):
    return re.sub(r"^step \S+ |, call .*$", "", title.replace(",", " ", 1))


def moved(picture, below, line_stays=False):
    """The picture with a row more, below this height. The text's line that stands there stays, if it says so."""

    def down(element):
        if line_stays and re.search(rf'class="rule"[^>]* y1="{below}"|x="(?:46|58)" y="{below + 12}"', element):
            return element
        top = re.search(r'\by="(\d+)"', element)
        height = re.search(r'\bheight="(\d+)"', element)
        if top and height and int(top[1]) < below <= int(top[1]) + int(height[1]):
            return element.replace(height[0], f'height="{int(height[1]) + ROW}"')
        return PLACES.sub(lambda it: f'{it[1]}="{int(it[2]) + ROW * (int(it[2]) >= below)}"', element)

    head, body = picture.split("</defs>\n")
    size = int(re.search(r'height="(\d+)" role', head)[1])
    head = head.replace(f'{size}" width', f'{size + ROW}" width').replace(f'height="{size}" role', f'height="{size + ROW}" role')
    return head + "</defs>\n" + re.sub(r"<(?:rect|line|circle|text)\b[^>]*>", lambda it: down(it[0]), body)


def height_of(group):
    return int(re.search(r'<text[^>]* y="(\d+)"', group)[1]) - 4


def with_load(picture, number, title):
    """With a load as the group of this number: that of the group before it that is one, at the lane of the group that it precedes."""
    groups = [it[0] for it in GROUP.finditer(picture)]
    lane, like = groups[number], groups[number - 2]
    y, x = height_of(lane), re.search(r'x1="(\d+)"', lane)[1]
    left, says = int(re.search(r'x1="(\d+)"', like)[1]), re.search(r"sees (.*?)(?: ×.*)?<", groups[number - 2])[1]
    end = re.search(r'x2="(\d+)"', like)[1]
    assert left != int(x)
    load = (
        f'<g><title>{title}</title>\n<line class="read" x1="{x}" y1="{y}" x2="{end}" y2="{y}"></line>\n<circle class="look" cx="{x}" cy="{y}" r="5"></circle>\n'
        f'<text class="" x="{int(x) + 14}" y="{y + 4}">sees {says}</text>\n</g>\n'
    )
    picture = moved(picture, y - 8, line_stays=True)
    at = [it.start() for it in GROUP.finditer(picture)][number]
    return picture[:at] + load + picture[at:]


def asleep(picture):
    """With the last row's call waiting, hatched to its end, and said so."""
    last = [it[0] for it in GROUP.finditer(picture)][-1]
    y, x = height_of(last), int(re.search(r'cx="(\d+)"', last)[1])
    box = re.search(r'<rect class="open" x="(\d+)" y="\d+" width="(\d+)"', picture)
    for _ in range(2):
        picture = moved(picture, y + 14)
    waits = f'<text class="waiting end" x="{int(box[1]) + int(box[2]) - 8}" y="{y + 4}">waits</text>\n</g>\n'
    hatch = f'<rect class="stand" x="{x - 10}" y="{y + 8}" width="20" height="{2 * ROW + 10}"><title>waits at its closure</title></rect>\n'
    sleeps = f'<text class="waiting" x="{x + 14}" y="{y + 4 + ROW}">asleep at a free lock</text>\n'
    return picture.replace(last, last.removesuffix("</g>\n") + waits + hatch + sleeps)


def main():
    sys.stdin.reconfigure(encoding="utf-8")
    sys.stdout.reconfigure(encoding="utf-8")
    picture = sys.stdin.read()
    titles = list(rows_of(open(sys.argv[1], encoding="utf-8").read()))
    own = [it[1] for it in GROUP.finditer(picture)]
    number = next(at for at, (title, mine) in enumerate(zip(titles, own)) if act_of(title) != act_of(mine))
    if ": load, found 3;" not in titles[number]:
        sys.exit(f"the crate has another step than the load of its unlock: {titles[number]}")
    picture = asleep(with_load(picture, number, titles[number])).replace(">2 go 1<", ">2 run<")
    drawn = [it[1] for it in GROUP.finditer(picture)]
    for title, mine in zip(titles, drawn, strict=True):
        if act_of(title) != act_of(mine):
            sys.exit(f"the crate's row '{title}' is drawn as '{mine}'")
        picture = picture.replace(f"<title>{mine}</title>", f"<title>{title}</title>", 1)
    sys.stdout.write(picture)


main()
