"""Must-fail edits in batches, for tools/prove.py.

A proof reads other functions by their contracts alone, so wrong bodies of different functions of a crate do not meet, and one check judges them
all: an edit is refused where a goal of its own function, or of a closure in it, stays open. What a check of several does not tell is tried again with
what is left, and at last alone. An edit of a contract, a definition or a proof, or of several places, is tried alone from the first: on the law of
its model, where it has one, and on the whole crate unless that refuses it.
"""
import difflib
import os
import re

HEAD = re.compile(r"^(\s*)(?:pub(?:\([^)]*\))?\s+)?(?:const\s+|unsafe\s+)*fn (\w+)")
IMPL = re.compile(r"\s*impl\b(?:<.*?>)?\s+(?:.*\sfor\s+)?&?(\w+)")
# The path of a function whose proof is kept.
KEPT = re.compile(r"/Rattle-\w+-proofs\.(.+)\.Tie\.oantt$")
# In a batch each changed function whose path is known gets this answer, to a goal that it does not have. Its own goals are searched all the same. Where
# answers are only lacking, rt would print all that it could offer, which takes up to half of the check.
ASKED_BY_NONE = "asked_by_none"
ANSWER = f"pub {ASKED_BY_NONE} : goal.{ASKED_BY_NONE}\n{ASKED_BY_NONE} = ?\n"
# A goal that a check leaves open: the path of the proof file that it stands in, and what is said of it.
GOAL = re.compile(r"^(?:note: )?\./(?:proofs/(\S*\w)/(?:Answers|Invariants|Proof)\.antt|\S+):\d+:\d+: error(?:\[[\w-]+\])?: (.*)")
# One that has no answer, and was searched for in vain; it is told before the line of its function. Of all of an invariant at once less is told.
UNANSWERED = re.compile(r"^note: \S+:\d+:\d+: (?:(it is not proved that .*)|`search` found no proof .*)")
FUNCTION = re.compile(r"^fn (\S*\w): (.*)")
# A closure's path has the function in whose body it stands, and last what it is named by, as the function that it is handed to.
CLOSURE = re.compile(r"(?:^|::|/)fn(?:::|/)(?:[A-Z][^:/]*(?:::|/))*(\w+)")
# The goal that an error is in.
WRONG_ANSWER = re.compile(r"^(?:note: )?\./proofs/(\S*\w)/(?:Answers|Invariants|Proof)\.antt:\d+:\d+: error(?:\[[\w-]+\])?: `([^`]+)`")
# What is said of a proof that cites a broken one: no goal of its own.
DEPENDS = re.compile(r"declarations? that depends? on `")
# What says nothing of a contract: a proof misses a name that the edit took away. The kit's gate takes an edit for refused that has no other reason;
# here it fails.
NAME_GONE = re.compile(r"has no field|has no `|is not in scope|: module `[^`]*`$")
# An error, and what the kit's gate takes in the code, in `specs` and in edited files for a text that cannot be read: one of no declaration, as of those
# that stand on one that no longer holds, or of a name. So in `specs` only what nothing there stands on may be refused.
ERROR = re.compile(r"(?m)^(?:\./)?(\S+?):\d+:\d+: error: (?:(`[^`]*`): )?(.*)")
UNREAD = re.compile(r"is not in scope|has no field|is no name|operand is missing|expected the end|cannot continue")
# What says less than a search that tried every way. So the edit has a control beside it, a harmless change at the same place (NAME.control.md), that
# has to be proved: then the search gives up on the wrong body, and not on any that is changed there. One without shows nothing.
GAVE_UP = re.compile(r"gave up at one of its limits|went on past its bounds|stopped at its own limit")
AT_A_LIMIT = "SHOWS NOTHING without a control"
# The function of a model whose contract is the law, and the line of a check that did not prove it.
LAW = "at_every_prefix"
NO_LAW = re.compile(rf"(?m)^fn \w+::{LAW}: (?!proved)")
# What a call requires that the edit may have brought in.
REQUIRED = re.compile(r"it is not proved that what `(\w+)` requires holds at this call")


class BadEdit(Exception):
    """An edit that cannot be read, applied or compiled."""


class Edit:
    """An edit: the lines that it changes, and the functions in whose bodies they all stand, or none."""

    def __init__(self, crate, name):
        self.name = name
        texts = applied(crate, name)
        self.hunks, self.impls, functions, words, had = {}, {}, set(), set(), set()
        for path, new in texts.items():
            old, new = text_of(f"{crate}/{path}").split("\n"), new.split("\n")
            codes = difflib.SequenceMatcher(None, old, new, autojunk=False).get_opcodes()
            self.hunks[path] = [(start, end, new[at:to]) for tag, start, end, at, to in codes if tag != "equal"]
            for start, end, lines in self.hunks[path]:
                had |= words_of(old[start:end])
                words |= words_of(lines)
            for start, _, _ in self.hunks[path]:
                function = body_at(old, start) if path.startswith("src/") else None
                functions.add(function)
                self.impls[function] = next((it[1] for line in reversed(old[:start]) if (it := IMPL.match(line))), "")
        self.functions = frozenset() if None in functions else frozenset(functions)
        self.brought = words - had

    def is_alone(self):
        return not self.functions


def words_of(lines):
    return {it for line in lines for it in re.findall(r"\w+", line)}


def text_of(path):
    with open(path, encoding="utf-8") as it:
        return it.read()


def applied(crate, name):
    """The texts of the files that the edit changes, with all its pairs applied in turn."""
    texts, path, old = {}, None, None
    for line in text_of(f"{crate}/must-fail/{name}").split("\n"):
        if line.startswith("file: "):
            path = line[6:].strip()
        elif line.startswith("old: "):
            old = line[5:]
        elif line.startswith("new:") and old is not None:
            text = texts.get(path) or text_of(f"{crate}/{path}")
            if text.count(old) != 1:
                raise BadEdit(f"its text stands {text.count(old)} times in {path}: {old}")
            texts[path] = text.replace(old, line[4:].removeprefix(" "))
    if not texts:
        raise BadEdit("it changes nothing")
    return texts


def body_at(lines, at):
    """The name of the function in whose body the line stands, or None."""
    for up in range(at - 1, -1, -1):
        head = HEAD.match(lines[up])
        if head:
            close = head[1] + "{"
            opens = next((it for it in range(up, len(lines)) if lines[it] == close or it == up and lines[it].endswith("{") or lines[it] == head[1] + ") {"), at)
            return head[2] if opens < at else None
    return None


def with_edits(crate, edits):
    """The texts of the crate's files with all these edits in them, and the texts as they were. No two change the same line."""
    hunks, new, old = {}, {}, {}
    for edit in edits:
        for path, own in edit.hunks.items():
            hunks.setdefault(path, []).extend(own)
    for path, own in hunks.items():
        old[path] = text_of(f"{crate}/{path}")
        lines = old[path].split("\n")
        for start, end, text in sorted(own, key=lambda it: it[:2], reverse=True):
            lines[start:end] = text
        new[path] = "\n".join(lines)
    return new, old


def with_answers(crate, edits, kept):
    """The files of answers of the functions that these edits change, with one more that no goal asks for, and the files as they were, or None. The names
    of what is kept tell the functions' paths. A function has none where another has its name, and its type does not tell them apart."""
    new, old = {}, {}
    paths = [it[1].split(".") for name in kept if (it := KEPT.search(name))]
    for function, of in {pair for edit in edits for pair in edit.impls.items()}:
        found = [it for it in paths if it[-1].lstrip("+") == function and "fn" not in it]
        found = [it for it in found if it[-2:-1] == [of]] if len(found) > 1 else found
        for names in found if len(found) == 1 else []:
            path = f"proofs/{'/'.join(names)}/Answers.antt"
            old[path] = text_of(f"{crate}/{path}") if os.path.exists(f"{crate}/{path}") else None
            goals = f"use Rattle.{os.path.basename(crate)}.proofs.{'.'.join(names)}.Goals as goal\n"
            new[path] = f"{old[path] or goals}\n{ANSWER}"
    return new, old


def owner(path):
    """The function that a path is of, or in whose body the closure stands that it is of. A cycle of calls is of a name of its own, with a `+`."""
    return (CLOSURE.search(path) or re.search(r"(\+?\w+)$", path))[1]


def open_goals(said):
    """What a check says of each function whose goals it leaves open."""
    found, unanswered = {}, []
    for line in said.split("\n"):
        goal, note, function = GOAL.match(line), UNANSWERED.match(line), FUNCTION.match(line)
        if goal and goal[1] and not DEPENDS.search(line):
            found.setdefault(owner(goal[1]), []).append(goal[2])
        elif note:
            unanswered.append(note[1])
        elif function:
            told = [it for it in unanswered if it]
            if not told and (unanswered or function[2].startswith("no proof: expected answers")):
                told = ["no proof was found"]
            found.setdefault(owner(function[1]), []).extend(told)
            unanswered = []
    return {name: reasons for name, reasons in found.items() if reasons}


def telling(reasons, brought):
    """The reasons that show something of the contract. Where names are gone the goals may have others, so one without an answer shows something
    only if a call requires it that the edit has brought in: as a second wake, which the types let through to a call that asks for more."""
    is_renamed = any(NAME_GONE.search(it) for it in reasons)
    for it in reasons:
        required = REQUIRED.match(it)
        is_new = required and required[1] in brought
        if not NAME_GONE.search(it) and (is_new or not is_renamed or not it.startswith("it is not proved")):
            yield it


def open_clauses(said):
    """Of each function whose goals a check leaves open, in its order, which clauses they are of; a goal of no clause by its own name."""
    found, unanswered = {}, []
    for line in said.split("\n"):
        wrong, note, function = WRONG_ANSWER.match(line), UNANSWERED.match(line), FUNCTION.match(line)
        if note:
            unanswered += re.findall(r"\(`([^`]+)`\)", line)
        for goal in [wrong[2]] if wrong and not DEPENDS.search(line) else unanswered if function else []:
            clause = re.search(r"-clause-(\w+)$", goal)
            found.setdefault(owner((wrong or function)[1]), {})[clause[1] if clause else "its one clause" if goal.startswith("returns") else goal] = True
        if function:
            unanswered = []
    return {name: [*clauses] for name, clauses in found.items()}


def refusal(clauses):
    """What refused an edit, in a few words."""
    few = lambda names: ", ".join(it if it == "its one clause" else f"`{it}`" for it in names[:3]) + (", .." if len(names) > 3 else "")
    return "; ".join(f"`{name}`: {few(names)}" for name, names in [*clauses.items()][:2]) + ("; .." if len(clauses) > 2 else "")


def by_lemmas(said):
    """The lemmas that no longer hold where no function's own goal is open, as of a wrong table."""
    names = re.findall(r"(?m)^\./(?:proofs|specs)/\w+\.antt:\d+:\d+: error(?:\[[\w-]+\])?: `([^`]+)`(?!.*depends? on `)", said)
    return ", ".join(f"`{it}`" for it in [*dict.fromkeys(names)][:3])


class Batches:
    """The tries of a crate's edits: `next` gives the edits of the next check, and `judge` takes what it said. `told` has what each came to."""

    def __init__(self, crate, names):
        self.crate = crate
        self.told, self.left, self.apart, self.most = {}, [], [], len(names)
        # What refused each edit; and by a control's name the edits that it serves, with what was told of each.
        self.refusals, self.waiting = {}, {}
        for name in names:
            try:
                self.add(Edit(crate, name))
            except (BadEdit, OSError) as why:
                self.told[name] = "BAD", str(why)

    def add(self, edit):
        (self.apart if edit.is_alone() else self.left).append(edit)

    def next(self):
        batch, taken = [], set()
        for edit in self.left:
            if not edit.functions & taken and len(batch) < self.most:
                batch.append(edit)
                taken |= edit.functions
        return batch or self.apart[:1]

    def has_law(self):
        return os.path.isdir(f"{self.crate}/proofs/{LAW}")

    def is_refused_by_law(self, edit, status, said):
        """Takes what a check of the law alone said of an edit that is tried alone. Where it is not refused there, it is still to be tried."""
        what = judged(edit, status, bool(NO_LAW.search(said)), reasons_of(said), said)
        if what[0] == "refused":
            self.apart.remove(edit)
            self.tell(edit, what, refusal(open_clauses(said)) or by_lemmas(said))
        return what[0] == "refused"

    def control_of(self, edit):
        """The name of an edit's control, where it has one."""
        name = edit.name.removesuffix(".edit") + ".control.md"
        return name if os.path.exists(f"{self.crate}/must-fail/{name}") else None

    def asked(self, batch):
        """Those of a batch that get the answer that no goal asks for: no control, and none that is tried as it is."""
        return [it for it in batch if it not in self.apart and it.name not in self.waiting]

    def judge(self, batch, status, said):
        """Takes the status of a check with these edits, and what it said."""
        said = "\n".join(it for it in said.split("\n") if f"`{ASKED_BY_NONE}`" not in it)
        is_verdict = status == 1 and "logic=not-proved" in said
        goals = open_goals(said) if is_verdict else {}
        clauses = open_clauses(said) if is_verdict else {}
        if batch[0] in self.apart:
            # all that is open is due to it
            self.apart = [it for it in self.apart if it is not batch[0]]
            self.tell(batch[0], judged(batch[0], status, is_verdict, reasons_of(said), said), refusal(clauses) or by_lemmas(said))
            return
        told = []
        for edit in batch:
            own = sorted(clauses if len(batch) == 1 else edit.functions & clauses.keys())
            reasons = reasons_of(said) if is_verdict and len(batch) == 1 else [it for name in edit.functions for it in goals.get(name, [])]
            if reasons:
                what = judged(edit, status, True, reasons, said)
                if what[0] == "refused" or what[0] == AT_A_LIMIT and self.control_of(edit) or what[0] != "BAD" and edit.name in self.waiting:
                    self.tell(edit, what, refusal({name: clauses[name] for name in own}) or by_lemmas(said))
                else:
                    # once more, as it is
                    self.apart.append(edit)
            elif status == 0 or is_verdict and len(batch) > 1 and edit.name in self.waiting and edit.functions <= proved_in(said):
                self.tell(edit, judged(edit, 0, False, [], said))
            else:
                continue
            told.append(edit)
        self.left = [it for it in self.left if it not in told]
        if not told and not is_verdict and len(batch) > 1:
            # one of them kept the check from its end: in halves
            self.most = len(batch) // 2
        elif not told:
            # nothing was told
            self.left = [it for it in self.left if it not in batch]
            self.apart += batch

    def tell(self, edit, what, refused_by=""):
        """Takes what an edit or a control came to. An edit of which it is told only that a search gave up waits for its control."""
        for name, why in self.waiting.get(edit.name, ()):
            told = {it: (it, f"its control: {what[1]}") for it in ("BAD", "NOT TRIED")} | {"NOT REFUSED": ("refused", "and its control is proved")}
            self.told[name] = told.get(what[0], ("SHOWS NOTHING", f"{why}; and its control is refused too"))
        if self.waiting.pop(edit.name, ()):
            return
        self.refusals[edit.name] = refused_by
        control = self.control_of(edit)
        if what[0] != AT_A_LIMIT or not control:
            self.told[edit.name] = what
            return
        try:
            own = Edit(self.crate, control)
            same = next((it for it in self.left + self.apart if it.name in self.waiting and it.hunks == own.hunks), own)
            if same is own:
                self.add(own)
            self.waiting.setdefault(same.name, []).append((edit.name, what[1]))
        except (BadEdit, OSError) as why:
            self.told[edit.name] = "BAD", f"its control: {why}"


def proved_in(said):
    """The names of the functions that a check proved, but for those that stand in the path of one that it did not, as a closure's does."""
    lines = re.findall(r"(?m)^fn (\S+): (proved)?", said)
    return {path.rpartition(":")[2] for path, proved in lines if proved} - {it for path, proved in lines if not proved for it in re.findall(r"\w+", path)}


def errors_of(said):
    """Each error that a check prints, but for those of proofs that cite a broken one."""
    return [it for it in re.findall(r"(?m)^\S+:\d+:\d+: error(?:\[[\w-]+\])?: (.*)", said) if not DEPENDS.search(it)]


def reasons_of(said):
    """All that a check says is wrong."""
    return errors_of(said) + [it for own in open_goals(said).values() for it in own]


def judged(edit, status, is_verdict, reasons, said):
    """What an edit came to, and why."""
    for path, name, what in ERROR.findall(said) if is_verdict else []:
        if (path in edit.hunks or path.startswith(("src/", "specs/"))) and (not name or UNREAD.search(re.sub("`[^`]*`", "", what))):
            return "BAD", f"rt ci does not take it for one that can be read: {what}"
    if is_verdict:
        for it in sorted(telling(reasons, edit.brought), key=lambda it: bool(GAVE_UP.search(it))):
            return AT_A_LIMIT if GAVE_UP.search(it) else "refused", it
        return "SHOWS NOTHING", reasons[0] if reasons else "its check says no reason"
    if status == 0:
        return "NOT REFUSED", "the crate is still proved with this edit"
    if status == 1 and re.search(r"\berror\[", said):
        return "BAD", next(iter(errors_of(said)), "it did not reach the prover")
    if status == 3:
        return "SHOWS NOTHING", "the prover gave no verdict"
    return "NOT TRIED", f"its check ended with status {status}"
