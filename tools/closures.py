#!/usr/bin/env python3
"""Where a running call may call a closure, or make a step, past its model, which no clause can say.

    python3 tools/closures.py [ROOT]

A running call hands its caller's closure on to `running_model`, which calls it where the call of the model stands at that. What types and clauses
leave open is told by lines: a closure of the library's own, handed on in its place, or a function that could be; a closure that a body calls; how a
pass comes to a step, said by the body itself; a step that no turn makes. Each such line stands in tools/closures.txt, with what it is for. Prints those
that do not, and those of the list that are gone, and then how many there are. The status is 0 where both agree.
"""
import pathlib
import re
import sys

LITERAL = re.compile(r"\|[^|]+\||(?:^|[(,=&>{]\s*|\bmove )\|\|")
CALLED = re.compile(r"(?<![\w.:])(?:running_passes::wake|wait|wakeup|wake|wake_one|wake_all|mtx_wait|mtx_wake_one|leave|act|f|make|choose)\)?\(|\b(?:wake|ask)_at_\w+\(|::call\w*\(")
# In `running_model`, what calls one in the end. Elsewhere, another name for one.
CALLS = re.compile(r"(?<!fn )(?<![\w.])(?:answer|call)\(")
RENAMES = re.compile(r"\blet (?!_)\w+ = &?(?:wait|wakeup|wake|wake_one|wake_all|mtx_wait|mtx_wake_one|leave|act|f|make|choose);")
# A step on a table or on words that is no turn's: a turn's names the rule or the object first.
STEP = re.compile(r"(?:\.|::)(?:(?:load|store|swap|fetch_\w+|compare_exchange\w*|\w+_new_seat)::<(?!_,)|learn\()")
SAID = re.compile(r"(?<!fn )\bspend\(|\bBy::<|::<(?:\w+, )*Brand\b|^impl\b.*\bWay<")
# A function that could be handed on by its name: one that is told a word, or a value, as wait and wake closures are; and those of `running_closures`.
NAMED = re.compile(r"^(?:(?:pub(?:\([^)]*\))? |const )*fn \w+(?:<.*>)?\()?(?:\w+: &(?:\w+::)*(?:\w*Word|CountedWait)|_?word: &[A-Z])\b|\w: &u64\b|\brunning_closures\b")
# What a call hands on to choose by, or to run, is its caller's.
HANDED = re.compile(r"\.(?:choose|run)\(.*, (?!f\))\w+\)")
COMING = re.compile(r"^ghost coming = \{ (?:λ \w+\. )?(\w+)")
# What the running types share, which has no call of a model; and what a caller hands in.
SHARED, HANDS_IN = {"running_passes", "running_for_one", "running_sharing"}, "running_closures"
BEGINS = ("Beginning", "Continuing", "Choosing")
# What makes the steps of who sleeps, and which call asks for which.
SLEEPS = re.compile(r"\b(?:sleep|wake)_by\(|\bself\.state\.|\bself\.make_|\bword\.load\(|\bself\.(?:change|count_in|ask|park)\(")


def tells(line, is_playing):
    """Whether the line has such a thing. `running_model` is what gives the ways to a step."""
    coming = COMING.match(line)
    if coming:
        return not is_playing and coming[1] not in BEGINS
    if not is_playing and (NAMED.search(line) or HANDED.search(line)) and not line.startswith("//"):
        return True
    if line.startswith(("//", "ghost", "requires", "ensures", "fn ", "pub fn ", "pub(crate) fn ")):
        return False
    if is_playing and CALLS.search(line) or not is_playing and (RENAMES.search(line) or SAID.search(line) or STEP.search(line)):
        return True
    return bool(LITERAL.search(line) or CALLED.search(line))


def found(root):
    """Each such line of the running types and of `running_model`, as `crate/src/file: line`."""
    for folder in ("running_*", "job_queue"):
        for file in sorted(it for it in root.glob(f"crates/{folder}/src/**/*.rt") if HANDS_IN not in it.parts):
            for line in map(str.strip, file.read_text().split("\n")):
                if NAMED.search(line) if SHARED.intersection(file.parts) else tells(line, "running_model" in file.parts):
                    yield f"{file.relative_to(root / 'crates')}: {line}"
    for line in map(str.strip, (root / "crates/running_closures/src/sleepers.rt").read_text().split("\n")):
        if SLEEPS.search(line):
            yield f"running_closures/src/sleepers.rt: {line}"


def main():
    root = pathlib.Path(sys.argv[1] if len(sys.argv) > 1 else ".")
    listed = [line for line in (root / "tools/closures.txt").read_text().split("\n") if line and not line.startswith("#")]
    lines = list(found(root))
    wrong = [f"not listed: {line}" for line in lines if lines.count(line) > listed.count(line)]
    wrong += [f"gone: {line}" for line in listed if listed.count(line) > lines.count(line)]
    for line in wrong:
        print(line)
    print(f"{len(lines)} lines, {len(wrong)} wrong")
    return bool(wrong)


if __name__ == "__main__":
    sys.exit(main())
