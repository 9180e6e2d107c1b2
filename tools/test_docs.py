"""What the pages show is what stands in the repository. Prints a line for each thing that was looked at: 'ok', or what is wrong."""

import glob
import os
import re

import edits
from play_page import PAGE as PLAYGROUND
from play_page import WRITES, address

PAGES = ["README.md", *sorted(glob.glob("docs/**/*.md", recursive=True))]
TEXTS = {page: open(page, encoding="utf-8").read() for page in PAGES}


def read(file):
    return open(file, encoding="utf-8").read() if os.path.exists(file) else ""


def report(label, wrong):
    print(f"{label}: {wrong}" if wrong else "ok")


def blocks(page):
    """The page's indented blocks, as they are."""
    return re.findall(r"(?:(?<=\n)|\A)(?: {4}.*\n)+", TEXTS[page])


def indented(text):
    return "".join(f"    {line}\n" for line in text.splitlines())


def quoted(page, stem, endings=("txt", "out", "err")):
    """Whether the page has the example's text and what is printed of it, each as a block of its own: a fault with what is advised of it."""
    for ending in endings:
        text = read(f"{stem}.{ending}")
        if ending == "err" and page == "docs/EXPLORE.md":
            text += read(f"{stem}.advice")
        if text and indented(text) not in blocks(page):
            return f"{page} does not have {stem}.{ending} as it is"


def asked(stem):
    """Whether its page shows the question with its answer, as they are, or has a row of it, with links to both: of a fault to the advice."""
    name = os.path.basename(stem)
    page = "docs/OWN.md" if name.startswith("own-") else "docs/EXPLORE.md"
    answer = f"[fault](../{stem}.advice)" if read(f"{stem}.advice") else f"[answer](../{stem}.out)"
    rows = [row for row in TEXTS[page].splitlines() if row.startswith("| ") and f"[{name}](../{stem}.txt): {answer}" in row.split(" | ")[0]]
    if len(rows) > 1:
        return f"{page} has {len(rows)} rows of it"
    if not rows:
        return quoted(page, stem)


def strange(page, known):
    """A block of a page that is none of these texts, and no call of a program."""
    for block in blocks(page):
        if block not in known and not block.startswith("    ./"):
            return f"no example has the block that begins with {block.splitlines()[0].strip()!r}"


def listed(stem):
    """Whether the table of examples has the example, with links to each file of it."""
    name = os.path.basename(stem)
    rows = [row for row in TEXTS["docs/TEXT.md"].splitlines() if row.startswith(f"| [{name}](../{stem}.txt)")]
    if len(rows) != 1:
        return f"docs/TEXT.md has {len(rows)} rows of it"
    if f"[try it](play.html{address(read(f'{stem}.txt'))})" not in rows[0]:
        return f"docs/TEXT.md has no link to try it: play.html{address(read(f'{stem}.txt'))}"
    for ending in ("out", "err", "advice", "trace"):
        if read(f"{stem}.{ending}") and f"[{ending}](../{stem}.{ending})" not in rows[0]:
            return f"docs/TEXT.md has no link to {stem}.{ending}"
    if os.path.exists(f"docs/pictures/{name}.svg") and f"[picture](pictures/{name}.svg)" not in rows[0]:
        return f"docs/TEXT.md has no link to docs/pictures/{name}.svg"


def bare(text):
    """The lines without their indentation, as code stands deeper in a source than on a page."""
    return "\n" + "\n".join(line.strip() for line in text.strip("\n").split("\n")) + "\n"


def unmade(code):
    """What of a block of code stands in no source: a piece between blank lines, but for lines that import words."""
    for piece in re.split(r"\n\n+", code.strip("\n")):
        lines = [line for line in piece.split("\n") if not re.match(r"(ghost )?use ", line)]
        if lines and not any(bare("\n".join(lines)) in source for source in SOURCES):
            return f"no source has the code that begins with {lines[0].strip()!r}"


def misplaced(row):
    """What a row of a table says that it cannot keep: that a word is in a file that it names, or that there is such a file."""
    terms = re.findall(r"`([^`]+)`", row.split(" | ")[-1])
    paths = [term for term in terms if re.search(r"\.(antt|rt)$", term)]
    for path in paths:
        if not any(file.endswith(f"/{path}") for file in CODE):
            return f"there is no {path}"
    text = "\n".join(code for file, code in CODE.items() if any(file.endswith(f"/{path}") for path in paths))
    for word in re.findall(r"\w{3,}", " ".join(set(terms) - set(paths))):
        if paths and not os.path.isdir(f"crates/{word}") and not re.search(rf"\b{word}\b", text):
            return f"{word} is not in {', '.join(paths)}"


def unknown(page):
    """A clause or field that a table of the page names and no source has."""
    column = None
    for row in TEXTS[page].splitlines():
        cells = row.strip("| ").split(" | ") if row.startswith("|") else []
        heads = [cell in ("Clause", "Field") for cell in cells]
        if not cells or any(heads):
            column = heads.index(True) if cells else None
        elif column is not None and column < len(cells):
            for word in re.findall(r"`(\w+)`", cells[column]):
                if word not in CLAUSES:
                    return f"no source has the clause {word}"


def ordered(page):
    """Whether an object's page has the headings that all of them have, in their order."""
    heads = [head for head in re.findall(r"^## (.*)$", TEXTS[page], re.MULTILINE) if head in HEADS]
    if heads != HEADS:
        return f"its headings are {heads}, and are to be {HEADS}"


def unfit(file):
    """What is wrong with a must-fail edit, or a control, before it is tried: it cannot be applied, or its name is none that it may have."""
    folder, name = os.path.split(file)
    crate = os.path.dirname(folder)
    of = re.fullmatch(r"crates/(?:model|running)_(\w+?)(?:_lock)?", crate)
    if not os.path.exists(re.sub(r"\.control\.md$", ".edit", file)):
        return f"{name} is a control of no edit"
    if of and of[1] in OBJECTS and not name.startswith(tuple(OBJECTS)):
        return f"{name} does not begin with its object"
    try:
        edits.Edit(crate, name)
    except (edits.BadEdit, OSError) as why:
        return f"{name}: {why}"


def anchors(page):
    """The anchors of the page's headings, as the usual viewers make them."""
    heads = re.findall(r"^#+ (.*)$", TEXTS[page], re.MULTILINE)
    return {re.sub(r"[^\w\- ]", "", head.lower()).replace(" ", "-") for head in heads}


def leads(page, link):
    """What is wrong with a link to a file of the repository."""
    path, _, anchor = link.partition("#")
    file = os.path.normpath(os.path.join(os.path.dirname(page), path)) if path else page
    # What else is wrong with the playground, ./test pages tells.
    if file == PLAYGROUND:
        kind = anchor.split("/")[0]
        texts = glob.glob("examples/*.txt" if kind == "play" else "examples/explore/*.txt")
        return None if not anchor or f"#play/{anchor.partition(chr(47))[2]}" in map(address, map(read, texts)) else f"it links to {link}, and no example has this text"
    if not os.path.exists(file):
        return f"it links to {link}, which is not there"
    if anchor and (file not in TEXTS or anchor not in anchors(file)):
        return f"it links to {link}, and {file} has no such heading"


report(PLAYGROUND, None if os.path.exists(PLAYGROUND) else f"it is not there: {WRITES}")
for text in sorted(glob.glob("examples/*.txt")):
    stem = text.removesuffix(".txt")
    report(stem, listed(stem))
    if text in TEXTS["README.md"]:
        report(stem, quoted("README.md", stem))
    if text in TEXTS["docs/TRACE.md"]:
        report(stem, quoted("docs/TRACE.md", stem, ("trace",)))

for block in blocks("docs/TEXT.md"):
    if block.startswith("    parties 2\n"):
        case = " / ".join(line.strip() for line in block.splitlines())
        report("docs/TEXT.md", None if f"\n{case}\n" in read("texts/sync-play/room.txt") else "no case has its text of several objects")

for text in sorted(glob.glob("examples/explore/*.txt")):
    report(text, asked(text.removesuffix(".txt")))
shown = [read(file) + read(file.replace(".err", ".advice")) * file.endswith(".err") for file in glob.glob("examples/explore/*.*")]
report("docs/EXPLORE.md", strange("docs/EXPLORE.md", [indented(text) for text in shown]))

HEADS = ["Use it", "Its steps", "What is promised", "What is not promised"]
for page in glob.glob("docs/objects/*.md"):
    report(page, ordered(page))

FOLDERS = [f"crates/*/{folder}/**/*.{ending}" for folder in ("src", "specs", "proofs") for ending in ("rt", "antt")]
CODE = {file: read(file) for folder in FOLDERS for file in glob.glob(folder, recursive=True)}
SOURCES = [bare(code) for code in CODE.values()]
CLAUSES = {name for code in CODE.values() for name in re.findall(r"\b(?:ensures\*?|requires|ghost|pub)(?: record| struct)? (\w+)", code)}
for page in PAGES:
    report(page, unknown(page))
    for row in TEXTS[page].splitlines():
        if row.startswith("| ") and re.search(r"\.(antt|rt)` *(of|\||,|;)", row):
            report(page, misplaced(row))
    for code in re.findall(r"^```(?:rust|antt)\n(.*?)^```$", TEXTS[page], re.DOTALL | re.MULTILINE):
        report(page, unmade(code))

OBJECTS = [crate.removeprefix("crates/model_") for crate in glob.glob("crates/model_*") if os.path.exists(f"{crate}/specs/Table.antt")]
for crate in sorted(glob.glob("crates/*")):
    report(crate, next(filter(None, map(unfit, sorted(glob.glob(f"{crate}/must-fail/*")))), None))
for edit in sorted(set(re.findall(r"`(\w+)\.edit`", "".join(TEXTS.values())))):
    report(edit, None if glob.glob(f"crates/*/must-fail/{edit}.edit") else "a page names it, and no crate has it")

for page in PAGES:
    for link in re.findall(r"\]\(([^)\s]+)\)", TEXTS[page]):
        if not re.match(r"[a-z]+:", link):
            report(page, leads(page, link))

lines = TEXTS["README.md"].count("\n")
report("README.md", None if lines <= 150 else f"it has {lines} lines, and is to have 150 at most")
