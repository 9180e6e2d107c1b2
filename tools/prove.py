#!/usr/bin/env python3
"""Proves, runs and tries what it is told, side by side: tools/prove.py [--lanes N] [--minutes K] [--count FILE] WHAT ..

WHAT is `proofs`, `tests`, `programs`, `edits`, `tries` or `cases`, each alone or with the names of crates, as `proofs=sync_play,job_queue`, or `parts`:

    proofs     each crate, or those named and what they stand on, is proved, over what this machine keeps of the same text
    tests      the tests of each crate are proved and run
    programs   each program is proved, built by both compilers and run on its stored run
    edits      each must-fail edit is tried, many in one check (tools/edits.py)
    tries      the tests of each crate are run as they are, unproved
    cases      each text of examples is read by the programs as they are, unproved
    parts      these parts of ./test, as `parts=docs,texts`: once the programs that play texts are built, where that is asked too

With a budget of K minutes tests run as they are, and what may be left out, which is edits and the proofs of tests, comes last, and is begun for so
long: first that of crates that changed lately, then from a quarter of all others on that each landing moves on by one. What was left out is told, and
is no failure.

It works in copies beside the checkout's history (.git/lanes), a lane each, since a command of rt locks the crates that it reads. What one of them has
proved the others take, by links, and so does the next call. A line is printed for each part of a crate, on a terminal how far it is; then what it
cost, and how many passed and failed, which goes to the file too.
"""
import argparse
import concurrent.futures
import contextlib
import fcntl
import glob
import json
import os
import re
import shutil
import signal
import subprocess
import sys
import tempfile
import threading
import time
import zlib

import edits

# What rt makes of a crate that a proof goes on from: the library that others stand on, and what was found of each of its functions.
MADE = ("rlib", "incremental")
PARTS = ("src", "specs", "proofs", "must-fail", "data", "stdin", "stdout", "args", "status")
# What a verdict may say in its last line. `main` is of programs and tests, `may-abort` of tests.
WORDS = {"logic", "functions", "tests", "axioms", "target", "cpu", "threads", "main", "may-wait", "sum", "native", "logic-built", "libraries-built", "statements", "incremental"}
# What the kit's own gate refuses beside what is not proved.
REFUSED = re.compile(
    r"^warning: calls of a tactic that chose a term"
    r"|^(?:\./)?(?:src|specs)/\S+ warning: this pattern binds a variable spelled like a constructor|^(?:\./)?(?:src|specs)/\S+: (?:note|warning): `search` stands in|^(?:\./)?proofs/\S+ note: `\S+` has chosen a term",
    re.M,
)
ONLY_TESTS = re.compile(r"(?://.*|#!?\[.*\]|mod tests;|\s)*")
RESULT = re.compile(r"^test result: \w+\. (\d+) passed; (\d+) failed", re.M)
COUNTED = re.compile(r"(\d+) passed, (\d+) failed(?:, (\d+) skipped)?")
# The bytes that a proof writes for a line of its library, and those that have to be free besides: 52,100 lines took 14.3 GB.
WRITTEN, SPARE = 275_000, 3_000_000_000
FULL = "No space left on device"
# The parts of ./test that play texts by these programs.
PLAYING = {"examples", "explore", "texts", "streams", "broken", "conform", "playground"}
# The part that proves a program again, in a repository of its own: over what was kept of its first proof.
COPIED = {"first": ["demo_counter"]}
# What is proved before a part takes it.
TAKEN = {"playground": ["sync_page"]}
# How long after its first commit what is committed came with the same landing, in seconds.
LANDING = 3 * 3600
# Held while what refused edits is written.
KEEPING = threading.Lock()
# What each program reads, and what it writes of that.
EXAMPLES = {
    "sync_play_main": ("examples/{}.txt", "examples/{}.out"),
    "sync_trace_main": ("examples/{}.txt", "examples/{}.trace"),
    "sync_draw_main": ("examples/{}.txt", "docs/pictures/{}.svg"),
    "sync_explore_main": ("examples/explore/{}.txt", "examples/explore/{}.out"),
}


class Crate:
    """A crate of crates.txt: the repository's crates that it uses, all that it stands on, and what stands in its folder."""

    def __init__(self, top, name, libraries):
        self.name, self.libraries, self.folder = name, [it.name for it in libraries], f"{top}/crates/{name}"
        self.below = {below for it in libraries for below in (it.name, *it.below)}
        texts = [edits.text_of(it) for it in glob.glob(f"{self.folder}/src/**/*.rt", recursive=True)]
        self.lines = sum(it.count("\n") for it in texts)
        self.is_program = os.path.isfile(f"{self.folder}/src/main.rt")
        # One of tests alone has no library: its tests are a program.
        self.is_library = not self.is_program and not ONLY_TESTS.fullmatch(edits.text_of(f"{self.folder}/src/lib.rt"))
        self.has_tests = any("#[test]" in it for it in texts)
        self.edits = sorted(os.path.basename(it) for it in glob.glob(f"{self.folder}/must-fail/*.edit"))


def crates_of(top):
    """The crates by name, each after those that it uses."""
    named = {}
    for line in open(f"{top}/crates.txt", encoding="utf-8"):
        head, colon, words = line.partition("#")[0].partition(":")
        if colon:
            named[head.split()[0]] = words.split()
    order = {}

    def put(name):
        for it in named[name]:
            if it in named:
                put(it)
        if name not in order:
            order[name] = Crate(top, name, [order[it] for it in named[name] if it in named])

    for name in named:
        put(name)
    return order


class Task:
    """One command's work on one crate: what it waits for, how long it takes, in lines of code proved, what does it, given a lane, and where it comes among
    what may be left out: 0 if it may not."""

    def __init__(self, kind, crate, after, weight, call, turn=0):
        self.kind, self.crate, self.after, self.weight, self.call, self.turn = kind, crate, after, weight, call, turn
        self.key, self.behind = (kind, crate.name), weight


class Told:
    """What a task came to: what passed, failed and was skipped, a line of it, and why where something failed."""

    def __init__(self, passed, failed=0, line="", why="", skipped=0):
        self.passed, self.failed, self.line, self.why, self.skipped = passed, failed, line, why, skipped


class Shelf:
    """What the lanes have proved. A lane that lacks a library would prove it again, from nothing."""

    def __init__(self, folder, crates):
        self.folder = folder
        keep_alone(folder, crates)

    def put(self, lane, crate):
        """Keeps what a lane has made of a crate, which it has proved."""
        for part in MADE:
            link(f"{lane.made_of(crate.name)}/{part}", f"{self.folder}/{crate.name}/{part}")

    def has(self, lane, crate):
        """Whether it keeps what the lane has of a crate."""
        stamp = stamp_of(lane.made_of(crate.name))
        return stamp is not None and stamp == stamp_of(f"{self.folder}/{crate.name}")

    def give(self, lane, crate):
        """Gives a lane what it lacks of a crate, and of the libraries that this stands on."""
        for name in (*crate.below, crate.name):
            own, kept = lane.made_of(name), f"{self.folder}/{name}"
            if stamp_of(kept) not in (None, stamp_of(own)):
                shutil.rmtree(f"{own}/incremental", ignore_errors=True)
                link(f"{kept}/rlib", f"{own}/rlib")
            if name == crate.name and not os.path.isdir(f"{own}/incremental"):
                link(f"{kept}/incremental", f"{own}/incremental")

    def renew(self, lane, crate):
        """Gives a lane anew what was found of a crate's functions as they stand. A check of edits has put what it found of them in its place, and the next
        would prove again all that they changed."""
        kept = f"{self.folder}/{crate.name}/incremental"
        if os.path.isdir(kept):
            link(kept, f"{lane.made_of(crate.name)}/incremental")

    def free(self):
        return shutil.disk_usage(self.folder).free

    def lacks(self, tasks):
        """How much room the disk has for what these tasks will prove, where that is too little, or nothing."""
        new = [it.crate for it in tasks.values() if it.kind == "proofs" and it.crate.is_library and not stamp_of(f"{self.folder}/{it.crate.name}")]
        wanted = sum(it.lines for it in new) * WRITTEN + SPARE * bool(new)
        return f"{self.free() / 1e9:.1f} GB are free at {self.folder}, and {wanted / 1e9:.1f} are wanted" if self.free() < wanted else ""

    def thin(self, lanes, names):
        """Takes away what was found of each function of these crates, of which nothing is left to do; others stand on the libraries alone."""
        for it in [*(it.made_of(name) for it in lanes for name in names), *(f"{self.folder}/{name}" for name in names)]:
            shutil.rmtree(f"{it}/incremental", ignore_errors=True)


def keep_alone(folder, names):
    """Takes away what lies in a folder under other names than these."""
    os.makedirs(folder, exist_ok=True)
    for it in os.listdir(folder):
        if it not in names:
            shutil.rmtree(f"{folder}/{it}")


def stamp_of(made):
    """By what rt tells whether a library is of the text that stands there."""
    path = f"{made}/rlib/stamp"
    return edits.text_of(path) if os.path.isfile(path) else None


def link(folder, to):
    """Puts a folder's files at a second place too, all or none. rt writes none of them in place, so the two stay apart."""
    for it in (to, f"{to}.new"):
        shutil.rmtree(it, ignore_errors=True)
    if os.path.isdir(folder):
        shutil.copytree(folder, f"{to}.new", copy_function=link_file)
        os.replace(f"{to}.new", to)


def link_file(path, to):
    try:
        os.link(path, to)
    except OSError:
        # no links there
        shutil.copy2(path, to)


class Lane:
    """A copy of the crates, in which one command of rt runs at a time."""

    def __init__(self, top, folder, shelf):
        self.top, self.folder, self.shelf, self.child, self.is_stopped = top, folder, shelf, None, False
        os.makedirs(f"{folder}/.git", exist_ok=True)
        for name in ("crates.txt", "HANDLES"):
            shutil.copy2(f"{top}/{name}", folder)
        names = os.listdir(f"{top}/crates")
        keep_alone(f"{folder}/crates", names)
        for name in names:
            self.copy(name)

    def made_of(self, name):
        return f"{self.folder}/crates/{name}/out"

    def copy(self, name):
        """Gives the lane a crate's files as they stand in the checkout, and leaves what rt made of it."""
        for part in PARTS:
            own, to = f"{self.top}/crates/{name}/{part}", f"{self.folder}/crates/{name}/{part}"
            shutil.rmtree(to, ignore_errors=True)
            if os.path.isdir(own):
                shutil.copytree(own, to)
            elif os.path.isfile(own):
                os.makedirs(os.path.dirname(to), exist_ok=True)
                shutil.copy2(own, to)

    def run(self, crate, words, stdin=None, apart=False):
        """Runs a command in a crate's folder: its status, and what it wrote; or, apart, its standard output and its standard error."""
        if self.is_stopped:
            raise InterruptedError
        with open(stdin or os.devnull, "rb") as given:
            self.child = subprocess.Popen(
                words,
                cwd=f"{self.folder}/crates/{crate.name}",
                env={**os.environ, "RT_SECONDS": "600"},
                stdin=given,
                stdout=subprocess.PIPE,
                stderr=subprocess.PIPE if apart else subprocess.STDOUT,
                text=True,
                errors="replace",
                start_new_session=True,
            )
        said, complained = self.child.communicate()
        status, self.child = self.child.returncode, None
        if FULL in f"{said}{complained}":
            raise OSError(FULL)
        return (status, said, complained) if apart else (status, said)

    def stop(self):
        self.is_stopped = True
        if self.child:
            os.killpg(self.child.pid, signal.SIGKILL)


def is_verdict(said):
    """Whether a check proved the crate, and says nothing that the kit's gate refuses."""
    last = next((it for it in said.split("\n") if it.startswith("logic=")), "")
    words = dict(it.partition("=")[::2] for it in last.split())
    may = {"Threads", "Wait"} | ({"Abort"} if "tests" in words else set())
    is_well = words.get("logic") == "proved" and set(words) <= WORDS | ({"may-abort"} if "tests" in words else set())
    return is_well and set(filter(None, words.get("main", "").split("+"))) <= may and not REFUSED.search(said)


def why_of(said):
    """The lines of a check that tell what is wrong with it."""
    lines = said.split("\n")
    told = [it for it in lines if re.search(r"error|FAILED|panicked|not proved|no proof", it) or REFUSED.search(it)]
    return "\n".join(it[:300] for it in (told or lines[-6:])[:12])


def prove(lane, crate, jobs):
    _, said = lane.run(crate, ["rt", "fmt"])
    if "formatted" in said:
        return Told(0, 1, "it is not laid out: rt fmt does so", said)
    if not crate.is_library:
        return Told(0)
    words = ["--jobs", str(jobs)]
    status, said = lane.run(crate, ["rt", "lib", *words])
    if status == 0 and "\nlogic=" not in "\n" + said and lane.shelf.has(lane, crate):
        return Told(1, 0, "kept by this machine")
    if status == 0 and "\nlogic=" not in "\n" + said:
        status, said = lane.run(crate, ["rt", "check", *words])
    if status or not is_verdict(said):
        return Told(0, 1, "NOT PROVED", why_of(said))
    lane.shelf.put(lane, crate)
    return Told(1, 0, "proved")


def test(lane, crate, jobs):
    status, said = lane.run(crate, ["rt", "test", "--jobs", str(jobs)])
    found = RESULT.search(said)
    if not found or status and found[2] == "0" or "\nlogic=" in said and not is_verdict(said):
        return Told(0, 1, "its tests are NOT PROVED", why_of(said))
    return Told(int(found[1]), int(found[2]), f"{found[1]} of its tests passed, proved", why_of(said) if found[2] != "0" else "")


def attempt(lane, crate, jobs):
    status, said = lane.run(crate, ["rt", "try", "--test", "--seconds", "1800"])
    found = RESULT.search(said)
    if not found or status and found[2] == "0":
        return Told(0, 1, "its tests could not be run", why_of(said))
    return Told(int(found[1]), int(found[2]), f"{found[1]} of its tests passed, unproved", why_of(said) if found[2] != "0" else "")


def build(lane, crate, jobs):
    """Proves a program, and runs it as each compiler builds it. The checkout gets what LLVM made."""
    folder = f"{lane.folder}/crates/{crate.name}"
    read = lambda name: edits.text_of(f"{folder}/{name}") if os.path.isfile(f"{folder}/{name}") else ""
    wanted, status = read("stdout"), int(read("status") or 0)
    for backend in ("rattle", "llvm"):
        words = ["rt", "run", "--jobs", str(jobs), "--backend", backend]
        ended, wrote, said = lane.run(crate, [*words, *(["--", *read("args").split("\n")] if read("args") else [])], f"{folder}/stdin" if read("stdin") else None, apart=True)
        if backend == "rattle" and not is_verdict(said + wrote) and "logic=" in said + wrote:
            return Told(0, 1, "NOT PROVED", why_of(said))
        if ended != status or wrote != wanted:
            return Told(0, 1, f"built by {backend}, it ended with status {ended} and not {status}, or wrote something else than its stored run", why_of(said))
    lane.shelf.put(lane, crate)
    to = f"{crate.folder}/out"
    os.makedirs(to, exist_ok=True)
    shutil.copy(f"{folder}/out/{crate.name}", f"{to}/{crate.name}.new")
    os.replace(f"{to}/{crate.name}.new", f"{to}/{crate.name}")
    if os.path.lexists(f"{to}/built_of"):
        os.remove(f"{to}/built_of")
    return Told(1, 0, "proved, and runs as it should")


def play(lane, crate, jobs):
    """Has a program as it is read its examples."""
    read, written = (f"{lane.top}/{it}" for it in EXAMPLES[crate.name])
    number = 0
    with tempfile.TemporaryDirectory() as room:
        for shown in glob.glob(written.format("*")):
            name = os.path.splitext(os.path.basename(shown))[0]
            shutil.copy(read.format(name), f"{room}/{name}")
            shutil.copy(shown, f"{room}/{name}.stdout")
            number += 1
        status, said = lane.run(crate, ["rt", "try", "--seconds", "1800", "--cases", room])
    if status:
        return Told(0, 1, "an example is not as it should be", why_of(said))
    return Told(number, 0, f"{number} examples are as they should be, unproved")


class Part:
    """A part of ./test, which is no crate's."""

    def __init__(self, name):
        self.name, self.below, self.edits = name, (), ()


def try_part(lane, part, jobs):
    ran = subprocess.run([f"{lane.top}/test", part.name], stdin=subprocess.DEVNULL, stdout=subprocess.PIPE, stderr=subprocess.STDOUT, text=True, errors="replace")
    *said, last = ran.stdout.rstrip("\n").split("\n")
    counted = COUNTED.fullmatch(last)
    if not counted:
        return Told(0, 1, "it did not come to its end", why_of(ran.stdout))
    return Told(int(counted[1]), int(counted[2]), last, "\n".join(said), int(counted[3] or 0))


class Tries:
    """The edits of a crate, tried in its lane."""

    def __init__(self, until):
        self.until = until

    def __call__(self, lane, crate, jobs):
        folder = f"{lane.folder}/crates/{crate.name}"
        batches, checks = edits.Batches(folder, crate.edits), 0
        kept = glob.glob(f"{lane.made_of(crate.name)}/incremental/*/*")

        def check(changed, *words):
            new, old = (a | b for a, b in zip(edits.with_edits(folder, changed), edits.with_answers(folder, batches.asked(changed), kept)))
            try:
                put(folder, new)
                status, said = lane.run(crate, ["rt", "check", "--jobs", str(jobs), *words])
                # What is said of a file that is made for this check alone says nothing of an edit.
                made = tuple(f"{note}./{path}:" for path, text in old.items() if text is None for note in ("", "note: "))
                return status, "\n".join(it for it in said.split("\n") if not it.startswith(made))
            finally:
                put(folder, old)
                lane.shelf.renew(lane, crate)

        while (batch := batches.next()) and time.time() < self.until:
            on_law = batch[0].is_alone() and batches.has_law()
            if not (on_law and batches.is_refused_by_law(batch[0], *check(batch, "--only", edits.LAW))):
                batches.judge(batch, *check(batch))
            checks += 1
        keep_refusals(f"{os.path.dirname(lane.folder)}/refused.json", {f"{crate.name}/{name.removesuffix('.edit')}": why for name, why in batches.refusals.items() if why})
        wrong = {name: it for name, it in batches.told.items() if it[0] != "refused"}
        refused, left = len(batches.told) - len(wrong), len(crate.edits) - len(batches.told)
        line = f"{refused} of its {len(crate.edits)} edits are refused, in {checks} checks" + (f"; {left} were not tried" if left else "")
        return Told(refused, len(wrong), line, "\n".join(f"{name}: {kind}: {why[:300]}" for name, (kind, why) in wrong.items()))


def put(folder, texts):
    """Writes these files of a folder, and takes away those that have no text."""
    for path, text in texts.items():
        if text is None:
            with contextlib.suppress(FileNotFoundError):
                os.remove(f"{folder}/{path}")
            continue
        os.makedirs(os.path.dirname(f"{folder}/{path}"), exist_ok=True)
        with open(f"{folder}/{path}", "w", encoding="utf-8") as it:
            it.write(text)


def closed(names, crates):
    """These crates and all that they stand on, or all crates."""
    return {it for name in names or crates for it in (name, *crates[name].below)}


def in_turn(top, names):
    """These crates, in the order in which what may be left out is begun: those that git says changed lately, the last first; then the others, round a
    circle that stays, from a quarter of it on that is another at each landing."""
    said = lambda *words: subprocess.run(["git", *words], cwd=top, stdout=subprocess.PIPE, stderr=subprocess.DEVNULL, text=True).stdout
    changed = said("status", "--porcelain", "--", "crates") + said("log", "-20", "--name-only", "--format=", "--", "crates")
    lately = [it for it in re.findall(r"(?m)crates/(\w+)/", changed) if it in names]
    began = landing_of(map(int, said("log", "--format=%ct").split())) / 4
    return list(dict.fromkeys([*lately, *sorted(names, key=lambda it: (zlib.crc32(it.encode()) / 2**32 - began) % 1)]))


def landing_of(times):
    """The number of the landing of the last of the commits that were made at these times."""
    number, first = 0, -LANDING
    for it in sorted(times):
        if it >= first + LANDING:
            number, first = number + 1, it
    return number


def tasks_of(wanted, crates, until, turns):
    """The tasks of what is wanted, by kind and crate. What may be left out has its turn."""
    tasks = {}

    def add(kind, name, after, weight, call):
        tasks[kind, name] = Task(kind, crates[name], after, weight, call, turns.get(name, 0) if kind in ("tests", "edits") else 0)

    def add_proofs(names):
        for name in closed(names, crates):
            if ("proofs", name) not in tasks:
                add("proofs", name, [("proofs", it) for it in crates[name].libraries], (120 + crates[name].lines) * crates[name].is_library, prove)

    for kind, names in wanted.items():
        if kind == "parts":
            continue
        chosen = [crates[it] for it in names or crates]
        below = lambda it: [("proofs", name) for name in [it.name, *it.libraries]]
        unproved = lambda it: 150 + sum(crates[name].lines for name in it.below) // 20
        if kind == "proofs":
            add_proofs(names)
        for it in chosen:
            if kind == "tests" and it.has_tests:
                add_proofs([it.name])
                # A program's tests go on from its own proof.
                add(kind, it.name, [*below(it), ("programs", it.name)], 3 * it.lines, test)
            elif kind == "programs" and it.is_program:
                add_proofs([it.name])
                add(kind, it.name, below(it), 600 + it.lines, build)
            elif kind == "edits" and it.edits:
                add_proofs([it.name])
                add(kind, it.name, below(it), 150 * len(it.edits), Tries(until))
            elif kind == "tries" and it.has_tests:
                add(kind, it.name, [], unproved(it), attempt)
            elif kind == "cases" and it.name in EXAMPLES:
                add(kind, it.name, [], unproved(it), play)
    for name in wanted.get("parts", ()):
        after = [("programs", it) for it in (EXAMPLES if name in PLAYING else COPIED.get(name, ()))]
        after += [("proofs", it) for it in TAKEN.get(name, ())]
        tasks["parts", name] = Task("parts", Part(name), after, 600, try_part)
    for task in tasks.values():
        task.after = [it for it in task.after if it in tasks and it != task.key]
    return tasks


class Progress:
    """Tells of each task as it ends, and on a terminal how far all is."""

    def __init__(self, tasks):
        self.whole, self.done, self.began = max(1, sum(it.weight for it in tasks.values())), 0, time.time()
        self.many, self.ended, self.is_terminal = len(tasks), 0, sys.stdout.isatty()

    def end(self, task, told, seconds):
        self.done, self.ended = self.done + task.weight, self.ended + 1
        if self.is_terminal:
            print("\r\x1b[K", end="")
        if told.line and (told.failed or not self.is_terminal or task.kind != "proofs"):
            print(f"{'FAILED: ' if told.failed else ''}{task.crate.name}: {told.line} ({seconds:.0f} s)" + "".join(f"\n    {it}" for it in told.why.split("\n") if it), flush=True)
        if self.is_terminal:
            left = (time.time() - self.began) * (self.whole - self.done) / max(self.done, 1)
            print(f"\r\x1b[K{self.ended} of {self.many}; some {left / 60:.0f} minutes more", end="", flush=True)


def run_all(tasks, lanes, progress, until):
    """Runs the tasks, each after those that it waits for and first those with the most behind them; what may be left out where nothing else is ready, in its
    turn, and until then. Returns what each came to, and its seconds."""
    for key in reversed(ordered(tasks)):
        for it in tasks[key].after:
            tasks[it].behind = max(tasks[it].behind, tasks[it].weight + tasks[key].behind)
    left, running, given, free = dict(tasks), {}, {}, list(lanes)

    def work(task, lane, jobs):
        began = time.time()
        if any(given[it][0].failed for it in task.after if it[0] == "proofs" or task.kind == "parts" and it[0] == "programs"):
            return Told(0, 1, "not tried, since what it stands on is not proved"), 0
        try:
            lane.shelf.give(lane, task.crate)
            told = task.call(lane, task.crate, jobs)
        except OSError as why:
            if FULL not in str(why):
                raise
            told = Told(0, 1, f"the disk is full: {lane.shelf.free() / 1e9:.1f} GB are free")
        return told, time.time() - began

    with concurrent.futures.ThreadPoolExecutor(len(lanes)) as pool:
        while left or running:
            if time.time() >= until:
                left = {key: it for key, it in left.items() if not it.turn}
            ready = sorted((it for it in left.values() if all(below in given for below in it.after)), key=lambda it: (it.turn, -it.behind))
            while ready and free:
                task, lane = ready.pop(0), free.pop()
                jobs = min(4, 1 + len(free) // (len(ready) + 1)) if task.kind in ("proofs", "tests") else 1
                running[pool.submit(work, task, lane, jobs)] = task, lane
                del left[task.key]
            for it in concurrent.futures.wait(running, return_when=concurrent.futures.FIRST_COMPLETED).done:
                task, lane = running.pop(it)
                given[task.key] = it.result()
                free.append(lane)
                progress.end(task, *given[task.key])
            if lanes[0].shelf.free() < SPARE:
                lanes[0].shelf.thin(lanes, {it.crate.name for it in tasks.values()} - {it.crate.name for it in [*left.values(), *(task for task, _ in running.values())]})
    return given


def ordered(tasks):
    """The keys of the tasks, each after those that it waits for."""
    order = []

    def put_in(key):
        for it in tasks[key].after:
            put_in(it)
        if key not in order:
            order.append(key)

    for key in tasks:
        put_in(key)
    return order


def lanes_at(top):
    """Where the lanes are, and whether they stay: with the checkout's history, where it has one."""
    ran = subprocess.run(["git", "rev-parse", "--absolute-git-dir"], cwd=top, stdout=subprocess.PIPE, stderr=subprocess.DEVNULL, text=True)
    return (f"{ran.stdout.strip()}/lanes", True) if ran.returncode == 0 else (tempfile.mkdtemp(prefix="lanes-"), False)


def keep_refusals(path, refusals):
    """Keeps what refused the edits of a crate, for tools/wrong_bodies.py."""
    with KEEPING:
        kept = json.loads(edits.text_of(path)) if os.path.exists(path) else {}
        with open(path, "w", encoding="utf-8") as it:
            json.dump({**kept, **refusals}, it, indent=1, sort_keys=True)


def tell(given, crates, tasks, began):
    """Says what was proved in this call, what only ran, what was not tried, and what it cost."""
    of = lambda kind: [name for done, name in given if done == kind]
    kept = [name for name in of("proofs") if given["proofs", name][0].line.startswith("kept")]
    now = os.times()
    minutes = (now.children_user + now.children_system - began.children_user - began.children_system) / 60
    print(f"\nproved in this call: {len([it for it in of('proofs') if given['proofs', it][0].passed]) - len(kept)} libraries; kept by this machine: {' '.join(kept) or 'none'}")
    if of("tries") or of("cases"):
        print(f"ran as they are, unproved: {' '.join(of('tries') + of('cases'))}")
    tried = sum(given[it][0].passed + given[it][0].failed for it in given if it[0] == "edits")
    unproved = [name for kind, name in tasks if kind == "tests" and (kind, name) not in given]
    if tried < sum(len(it.edits) for it in crates.values()):
        print(f"edits that were not tried: {sum(len(it.edits) for it in crates.values()) - tried}")
    if unproved:
        print(f"crates whose tests were not proved: {len(unproved)}")
    share = lambda kind: sum(seconds for key, (_, seconds) in given.items() if key[0] == kind) / 60
    spent = {kind: share(kind) for kind in dict.fromkeys(it[0] for it in given)}
    print("; ".join(f"{kind} {it:.0f}" for kind, it in spent.items()) + " minutes of a lane" + (f", all {sum(spent.values()) / spent['proofs']:.1f} times the proofs" if spent.get("proofs") and not kept else ""))
    print(f"{(now.elapsed - began.elapsed) / 60:.1f} minutes, {minutes:.0f} of a processor")


def main(words):
    parser = argparse.ArgumentParser(usage=__doc__)
    parser.add_argument("--lanes", type=int, default=len(os.sched_getaffinity(0)))
    parser.add_argument("--minutes", type=float)
    parser.add_argument("--count")
    parser.add_argument("what", nargs="+")
    asked = parser.parse_args(words)
    top = os.path.dirname(os.path.dirname(os.path.realpath(__file__)))
    crates = crates_of(top)
    wanted = {it.partition("=")[0]: [name for name in it.partition("=")[2].split(",") if name] for it in asked.what}
    unknown = [it for kind, names in wanted.items() for it in names if kind != "parts" and it not in crates]
    unknown += [it for it in wanted if it not in ("proofs", "tests", "programs", "edits", "tries", "cases", "parts")]
    if unknown:
        sys.exit(f"{unknown[0]}: there is no such crate, or nothing of that name is done\n{__doc__}")
    has_budget = asked.minutes is not None
    until = time.time() + 60 * asked.minutes if has_budget else float("inf")
    turns = {name: at for at, name in enumerate(in_turn(top, crates), 1)} if has_budget or [*wanted] == ["edits"] else {}
    if has_budget and "tests" in wanted:
        wanted["tries"] = wanted["tests"]
    tasks = tasks_of(wanted, crates, until, turns)
    (at, stays), began = lanes_at(top), os.times()
    if os.environ.get("LANES") == at:
        sys.exit("it is called from within: a source has changed since the programs were built")
    os.environ["LANES"] = at
    os.makedirs(at, exist_ok=True)
    held = open(f"{at}/lock", "w", encoding="utf-8")
    try:
        fcntl.flock(held, fcntl.LOCK_EX | fcntl.LOCK_NB)
    except BlockingIOError:
        print("waiting for another call in this checkout to end", flush=True)
        fcntl.flock(held, fcntl.LOCK_EX)
    shelf = Shelf(f"{at}/proved", crates)
    if lacks := shelf.lacks(tasks):
        if shelf.free() < SPARE:
            sys.exit(f"the disk is full: {lacks}")
        print(f"{lacks}: what nothing needs any more is taken away", flush=True)
    lanes = [Lane(top, f"{at}/{number}", shelf) for number in range(max(1, min(asked.lanes, len(tasks))))]

    def stop(*_):
        for it in lanes:
            it.stop()
        sys.exit(130)

    signal.signal(signal.SIGINT, stop)
    try:
        given = run_all(tasks, lanes, Progress(tasks), until)
    finally:
        if not stays:
            shutil.rmtree(at, ignore_errors=True)
    passed, failed, skipped = (sum(getattr(it, what) for it, _ in given.values()) for what in ("passed", "failed", "skipped"))
    tell(given, crates, tasks, began)
    print(f"{passed} passed, {failed} failed" + f", {skipped} skipped" * bool(skipped), flush=True)
    if asked.count:
        with open(asked.count, "w", encoding="utf-8") as it:
            it.write(f"{passed} {failed} {skipped}\n")
    return int(failed > 0)


if __name__ == "__main__":
    sys.exit(main(sys.argv[1:]))
