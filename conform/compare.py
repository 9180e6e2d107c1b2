"""Plays schedule texts on the Rust crate and on the model, and compares each step and each answer.

    python3 conform/compare.py [--without ROW] COUNT    all examples, the tables of texts/, and about so many random texts of each object
    python3 conform/compare.py --write                  writes texts/rust

A difference is explained where the crate makes the model's steps once it has the departures of docs/DIFFERENCES.md; it is counted under
the fewest of these rows that suffice. ROW is one that is not to excuse any. The status is 1 where a difference is unexplained.
"""

import collections
import concurrent.futures
import dataclasses
import itertools
import os
import pathlib
import re
import subprocess
import sys
import threading
import zlib

TOP = pathlib.Path(__file__).resolve().parent.parent
sys.path.insert(0, str(TOP / "tools"))
import played

SEED = 54
ATOMICS = ("atomic_u64", "atomic_u128", "atomic_i64", "atomic_i128")
OF_ATOMICS = ("unlock_by_kind", "atomic_on_reader", "atomic_two_words", "atomic_looks_after_none")
# The rows that each object can show, of docs/DIFFERENCES.md.
ROWS = {
    "mutex": (),
    "spin": (),
    "semaphore": (),
    "barrier": ("barrier_exchange", "barrier_opens"),
    "rwreader": ("unlock_by_kind", "reader_limit"),
    "rwwriter": ("unlock_by_kind", "failed_mark", "last_look", "reader_limit"),
    "condvar": ("condvar_relocks",),
    "once": (),
    "lazy": (),
    **dict.fromkeys(ATOMICS, OF_ATOMICS),
}
# How many texts of each object there are, in a hundred of one that is not named.
SHARES = {"rwwriter": 350, "rwreader": 150, "condvar": 150, "barrier": 150, **dict.fromkeys(ATOMICS, 40)}


@dataclasses.dataclass(frozen=True)
class Outcome:
    """What came of a text: its rows as sync-trace prints them, its lines as sync-play does, and its fault."""

    trace: bytes
    answers: bytes
    fault: bytes


class Code(threading.local):
    """A program that plays texts on the Rust crate, one for each thread."""

    def __init__(self, name):
        command = [TOP / "conform/out" / name, "serve"]
        self.process = subprocess.Popen(command, stdin=subprocess.PIPE, stdout=subprocess.PIPE)

    def play(self, text, rows=()):
        self.process.stdin.write(f"{','.join(rows)} {len(text)}\n".encode() + text)
        self.process.stdin.flush()
        lengths = map(int, self.process.stdout.readline().split())
        return Outcome(*(self.process.stdout.read(length) for length in lengths))


def model(text):
    """What the model's programs make of a text."""
    _, trace, told = played.played("sync-trace", text)
    _, answers, fault = played.played("sync-play", text)
    if not told.startswith(fault):
        sys.exit(f"{text}: sync-play tells {fault}, and sync-trace {told}")
    return Outcome(trace, answers, fault)


def events_of(trace):
    """The rows of a trace, each as (party, act, words, call)."""
    head, *rows = trace.decode().splitlines()
    at = [head.index(name) for name in ("party", "act", "word", "holds", "call")]
    for row in rows:
        party, act, words, _, call = (row[start:end].strip() for start, end in zip(at, [*at[1:], None]))
        yield party, act, words, call


def steps_of(trace):
    """How many steps a trace has."""
    last = trace.splitlines()[-1].split()[0]
    return 0 if last == b"step" else int(last.split(b"-")[-1])


def calls_of(trace):
    """The calls of an atomic's trace: of each its words, when it began and answered, its answer, and what its closure chose."""
    calls, under_way = [], {}
    for now, (party, act, _, call) in enumerate(events_of(trace)):
        if call == "begins":
            under_way[party] = {"words": act.split(), "began": now, "ended": None, "answer": None, "choice": None}
            calls.append(under_way[party])
        elif act.startswith("its closure answers "):
            under_way[party]["choice"] = act.split()[3:]
        if call not in ("begins", "goes on") and not call.startswith(("waits ", "chooses ")):
            under_way.pop(party).update(ended=now, answer=call)
    return calls


def acted(call, value, wrap):
    """What a call answers where the value is this, and the value after it."""
    name, *numbers = call["words"]
    numbers = [int(number) for number in numbers]
    if name == "load":
        return str(value), value
    if name == "store":
        return "done", numbers[0]
    if name.startswith("compare_exchange"):
        return (f"ok {value}", numbers[1]) if value == numbers[0] else (f"err {value}", value)
    if name == "fetch_update":
        return (f"err {value}", value) if call["choice"] == ["none"] else (f"ok {value}", int(call["choice"][1]))
    becomes = {
        "swap": lambda old, new: new,
        "fetch_add": lambda old, more: wrap(old + more),
        "fetch_sub": lambda old, less: wrap(old - less),
        "fetch_and": lambda old, mask: old & mask,
        "fetch_or": lambda old, mask: old | mask,
        "fetch_xor": lambda old, mask: old ^ mask,
        "fetch_nand": lambda old, mask: wrap(~(old & mask)),
        "fetch_max": max,
        "fetch_min": min,
    }
    return str(value), becomes[name](value, numbers[0])


def are_of_some_order(text, trace):
    """Whether an atomic's answers are those of its calls made whole, one after the other: each between its beginning and its answer."""
    calls = calls_of(trace)
    if not calls:
        return True
    name, _, first = text.split(b"\n")[0].split()
    bits = int(re.sub(rb"\D", b"", name))
    least = -(1 << (bits - 1)) if name.startswith(b"atomic_i") else 0

    def wrap(number):
        return (number - least) % (1 << bits) + least

    seen, left_to_try = set(), [(frozenset(range(len(calls))), int(first))]
    while left_to_try:
        left, value = left_to_try.pop()
        ends = [calls[at]["ended"] for at in left if calls[at]["ended"] is not None]
        if not ends:
            return True
        first_end = min(ends)
        for at in left:
            call = calls[at]
            if call["began"] > first_end or (call["words"][0] == "fetch_update" and call["choice"] is None):
                continue
            answer, after = acted(call, value, wrap)
            rest = (left - {at}, after)
            if call["answer"] in (None, answer) and rest not in seen:
                seen.add(rest)
                left_to_try.append(rest)
    return False


def object_of(text):
    words = text.split(b"\n")[0].split()
    name = words[0].decode("latin-1") if words else ""
    return name if name in ROWS else None


class Judge:
    def __init__(self, without=None):
        self.rust, self.amended, self.without = Code("rust"), Code("amended"), without

    def rows_of(self, text):
        return tuple(row for row in ROWS.get(object_of(text), ()) if row != self.without)

    def explained(self, text, rust, other):
        """The rows by which the crate and another outcome differ, none where they do not; or, as words, why that is unexplained."""
        rows = self.rows_of(text)
        played = {(): self.amended.play(text), rows: self.amended.play(text, rows)}
        if played[()] != rust:
            return "the copy without a departure is not the Rust crate"
        if played[rows] != other:
            return "it is not what the Rust crate does with each departure that is listed"
        atomic = object_of(text) in ATOMICS
        if atomic and not all(are_of_some_order(text, outcome.trace) for outcome in (rust, other)):
            return "the answers are those of no order"

        # The steps of an atomic are others; its answers are compared.
        def compared(outcome):
            return (outcome.answers, outcome.fault) if atomic else outcome

        fewest_first = (some for count in range(len(rows) + 1) for some in itertools.combinations(rows, count))
        return next(some for some in fewest_first if compared(played.get(some) or self.amended.play(text, some)) == compared(other))

    def judge(self, text):
        rust, other = self.rust.play(text), model(text)
        return rust, other, self.explained(text, rust, other)


def as_text(line):
    return "".join(f"{words}\n" for words in line.split(" / ")).encode()


def share(name, count):
    return count * SHARES.get(name, 100) // 100


def random_texts(name, count, lines, seed):
    """So many random texts of an object, with no more random lines each: half made with the crate as it is, half with all departures."""
    texts = []
    for code, rows in (("rust", ()), ("amended", ROWS[name])):
        command = [TOP / "conform/out" / code, "texts", name, str(seed), str(count // 2), str(lines), ",".join(rows)]
        texts += subprocess.run(command, capture_output=True, text=True, check=True).stdout.splitlines()
    return texts


def told(outcome, steps):
    """What a table of texts/rust says of an outcome."""
    lines = (outcome.answers or outcome.fault).decode("latin-1").splitlines()
    return " / ".join([*lines, f"steps {zlib.crc32(outcome.trace):08x}"] if steps else lines)


def entry(text, rust, port, rows):
    """What a table of texts/rust has of a text."""
    steps = object_of(text) not in ATOMICS
    line = text.decode("latin-1").strip().replace("\n", " / ")
    shown = f"{line}\n    {'rust ' if rows else ''}=> {told(rust, steps)}\n"
    return shown + f"    {', '.join(rows)} => {told(port, steps)}\n" if rows else shown


def listed():
    """The entries of texts/rust."""
    for table in sorted(TOP.glob("texts/rust/*.txt")):
        yield from re.findall(r"^\w.*\n(?: {4}.*\n)+", table.read_text(encoding="utf-8"), re.MULTILINE)


def texts_of_repository():
    """All texts of one object that the crate has: none of several, and no lock of one's own."""
    texts = [file.read_bytes() for file in sorted(TOP.glob("examples/*.txt"))]
    for table in sorted(TOP.glob("texts/sync-[pt]*/*.txt")):
        texts += [played.written(text) for text, _ in played.cases_in(table.read_text(encoding="utf-8"))]
    return [text for text in texts if text.split()[:1] not in ([b"parties"], [b"object"])]


def compare(count, without):
    page = pathlib.Path("docs/DIFFERENCES.md").read_text(encoding="utf-8")
    all_rows = dict.fromkeys(row for rows in ROWS.values() for row in rows)
    unlisted = [row for row in all_rows if f"\n| `{row}` |" not in page]
    if unlisted:
        sys.exit(f"docs/DIFFERENCES.md has no row {', '.join(unlisted)}")
    entries = {as_text(of.split("\n")[0]): of for of in listed()}
    texts = texts_of_repository() + list(entries)
    texts += [as_text(text) for name in ROWS for text in random_texts(name, share(name, count), 24, SEED)]
    judge = Judge(without)
    counted, wrong = collections.Counter(), 0
    played_there = [judge.rust.play(pathlib.Path(f"examples/rwwriter-{name}.txt").read_bytes()) for name in ("last-look", "failed-mark")]
    for line in re.findall(r"^ {4}(\d.*)$", page, re.MULTILINE):
        if not any(line in outcome.trace.decode().splitlines() for outcome in played_there):
            wrong += 1
            print(f"docs/DIFFERENCES.md shows what the Rust crate does not do: {line}")
    by_row = collections.defaultdict(list)
    steps = answers = 0
    with concurrent.futures.ThreadPoolExecutor(2 * (os.cpu_count() or 1)) as pool:
        for text, (rust, other, rows) in zip(texts, pool.map(judge.judge, texts)):
            steps += steps_of(rust.trace)
            answers += rust.answers.count(b"\n")
            if isinstance(rows, str):
                wrong += 1
                if wrong <= 5:
                    show(text, rust, other, rows)
                continue
            if text in entries and entries[text] != entry(text, rust, other, rows):
                wrong += 1
                print(f"texts/rust tells something else: {entries[text]}")
            counted["differ" if rows else "same"] += 1
            for row in rows:
                by_row[row].append(text)
        # Each row is needed: without it some of its texts are unexplained.
        for row, some in sorted(by_row.items()):
            missing = Judge(row)
            if not any(isinstance(found, str) for _, _, found in pool.map(missing.judge, some[:20])):
                wrong += 1
                print(f"{row} excuses nothing: without it nothing is unexplained")
    for row in all_rows:
        print(f"{row}: {len(by_row[row])} texts differ by it")
    print(f"{len(texts)} texts, {steps} steps, {answers} lines of answers: {counted['same']} same,", end=" ")
    print(f"{counted['differ']} differ as listed, {wrong} unexplained")
    return 1 if wrong else 0


def show(text, rust, other, why):
    print(f"UNEXPLAINED: {why}")
    for name, told in (("text", text), ("the Rust crate", rust.trace + rust.fault), ("the model", other.trace + other.fault)):
        print(f"  {name}:", *told.decode("latin-1").splitlines(), sep="\n    ")


HEAD = """\
# Texts of {name}: what the Rust crate does with them, and this port.
#
# Written by `python3 conform/compare.py --write`, which played them on iceoryx2-pal-concurrency-sync 0.10.0, built as it is.
# Played on this port alone by `./test texts`. Below a text stands what both print. Where they differ it is what the crate prints, behind
# `rust`, and then what the port prints, behind the rows of docs/DIFFERENCES.md by which it does. `steps` is the CRC-32 of all rows that
# sync-trace prints.
"""


def write():
    judge = Judge()
    for name in ROWS:
        lines, count = [HEAD.format(name=name)], share(name, 140)
        for line in dict.fromkeys(random_texts(name, 4 * count, 12, SEED + 1)):
            text = as_text(line)
            rust, port = judge.rust.play(text), judge.amended.play(text, judge.rows_of(text))
            # One that has a fault on either tells less.
            if (rust.fault or port.fault) and zlib.crc32(text) % 20:
                continue
            rows = judge.explained(text, rust, port)
            if isinstance(rows, str):
                sys.exit(f"{line}: {rows}")
            lines.append(entry(text, rust, port, rows))
            count -= 1
            if count == 0:
                break
        (TOP / "texts/rust").mkdir(exist_ok=True)
        (TOP / f"texts/rust/{name}.txt").write_text("".join(lines), encoding="utf-8")


def main():
    os.chdir(TOP)
    arguments = sys.argv[1:]
    if arguments == ["--write"]:
        write()
        return 0
    without = arguments[1] if arguments[0] == "--without" else None
    return compare(int(arguments[-1]), without)


if __name__ == "__main__":
    sys.exit(main())
