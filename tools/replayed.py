"""Plays each text in an answer of sync-explore by sync-play, and holds what that prints against the line, or against the condition that
the question ends with; and whether its wait closures that sleep could have gone on where the text says that they do. Of a lock of one's own it looks
whether two hold it at the end of its text, and, where there is none, whether they never do.

    python3 tools/replayed.py QUESTION ANSWER

Prints nothing where all agree, and else what does not, with status 1. Who holds what, and who wakes whom, is read from sync-trace.
"""

import re
import subprocess
import sys

import own_locks

NO_ANSWERS = ("waits", "wakes", "chooses")
VERBS = ("go", "run", "wait", "abort", "some", "none")
CLOSURES = ("aborts", "may", "sleeps", "serves")
# What a line says of a party, which no text tells.
COURSES = (" loops for ever", " waits for itself")


def spread(question):
    """The question, where a line of several parties, as `1..3 lock`, stands once for each."""
    lines = [(line, re.match(r"\s*(\d+)\.\.(\d+)( .*)", line)) for line in question.splitlines()]
    each = ([f"{party}{of[3]}" for party in range(int(of[1]), int(of[2]) + 1)] if of else [line] for line, of in lines)
    return "\n".join(line for some in each for line in some) + "\n"


def lets_of(question):
    """The words behind each `let`."""
    return [line.split()[1:] for line in question.splitlines()[1:] if line.split()[:1] == ["let"]]


def objects_of(question):
    """What each object is, by its name; one that stands alone has none."""
    first = question.split()[0]
    return {words[0]: words[1] for words in lets_of(question) if not words[1].isdigit()} if first == "parties" else {"": first}


def head_of(question):
    """The lines that a text begins with: the question's first, and those that name objects."""
    first, *lines = question.splitlines()
    return [first, *(line for line in lines if line.split()[:1] == ["let"] and line.split()[1] in objects_of(question))]


def variables_of(question):
    """The names of a client's variables; none where the question is about calls alone."""
    return [words[0] for words in lets_of(question) if words[0] not in objects_of(question)]


def call_in(item):
    """The call of an item, behind its tests and parentheses; None where it changes a variable."""
    words = [word for word in item.split() if word not in ("(", ")")]
    while words and words[0] in ("if", "while", "last"):
        words = words[words.index("then") + 1 if words[0] == "last" else 4 :]
    return None if not words or words[0] in ("set", "add", "sub") else " ".join(words)


def opening_of(question):
    """The lines that are played first."""
    for line in question.splitlines()[1:]:
        first, _, lines = line.strip().partition(" ")
        if first == "begin":
            return lines.split(" / ")
    return []


def calls_of(question):
    """The calls of each party, those of the opening and then in the question's order: (party, call)."""
    calls = [tuple(line.split(" ", 1)) for line in opening_of(question) if line.split()[1] not in VERBS]
    for line in question.splitlines()[1:]:
        party, _, rest = line.strip().partition(" ")
        if not party.isdigit():
            continue
        if rest.strip() and rest.split()[0] not in CLOSURES:
            calls += [(party, call) for call in map(call_in, rest.split(",")) if call is not None]
    return calls


def condition_of(question):
    """The terms of the condition that the question ends with, or None."""
    last = question.split("\n")
    last = [line.split() for line in last if line.split()][-1]
    if last[0] not in ("find", "never"):
        return None
    return " ".join(last[1:]).split(" and ")


def answers_in(output):
    """The answers of each party, by what sync-play printed."""
    answers = {}
    for line in output.splitlines():
        party, _, words = line.partition(" ")
        if party.isdigit() and words.split()[0] not in NO_ANSWERS:
            answers.setdefault(party, []).append(words.split(" failed ")[0])
    return answers


def words_in(question, output):
    """What the words of each object hold at the end, as an outcome has it."""
    return [line.split(" failed ")[0] for line in output.splitlines()[-len(objects_of(question)) :]]


def sleepers(question):
    """The parties whose wait closures sleep."""
    return [line.split()[0] for line in question.splitlines()[1:] if line.split()[1:] == ["sleeps"]]


def stands(party, entries, output):
    """Whether a party stands at its wait closure: it has waited more often than that has answered."""
    waited = len(re.findall(f"(?m)^{party} waits ", output))
    return waited > entries.count(f"{party} abort") + entries.count(f"{party} wait")


def unanswered(question, entries, output, party):
    """What is told of a call that does not answer."""
    return "sleeps for ever" if party in sleepers(question) and stands(party, entries, output) else "for ever"


def told(question, entries, output):
    """The line's outcome, by what sync-play printed of the text."""
    answers = answers_in(output)
    left = [entry for entry in entries if tuple(entry.split(" ", 1)) in calls_of(question)]
    shown = []
    for party, call in calls_of(question):
        if f"{party} {call}" in left:
            left.remove(f"{party} {call}")
            shown.append((party, answers[party].pop(0) if answers.get(party) else unanswered(question, entries, output, party)))
        else:
            shown.append((party, "-"))
    rows = []
    for at, (party, fate) in enumerate(shown):
        if at and shown[at - 1][0] == party:
            rows[-1] += f", {fate}"
        else:
            rows.append(f"{party} {fate}")
    return " | ".join([*(rows or ["no calls"]), *words_in(question, output)])


def is_told_client(question, entries, output, outcome):
    """Whether a client's line can be so, by what sync-play printed of the text: of a call that its party may make again any answer of the
    party's. What the variables hold no text tells."""
    *parts, _ = outcome.split(" | ")
    answers, words = answers_in(output), words_in(question, output)
    if parts[-len(words) :] != words:
        return False
    del parts[-len(words) :]
    for part in filter("no calls".__ne__, parts):
        party, _, fates = part.partition(" ")
        for fate in fates.split(", "):
            if fate not in ("-", unanswered(question, entries, output, party)) and fate not in answers.get(party, []):
                return False
    return True


def run(program, text):
    return subprocess.run([program], input=text, capture_output=True, text=True, check=False)


def holders(text):
    """What the last row of the text's trace says of holds."""
    rows = run("./sync-trace", text).stdout.splitlines()
    if len(rows) < 2:
        return []
    at = rows[0].index("holds")
    return rows[-1][at : rows[0].index("call")].strip().split(", ")


def has_hold(question, text, party, what):
    """Whether a party has a hold, of the object that is named, or of any."""
    name, _, kind = what.rpartition(".")
    verbs = ("", " writes") if kind == "write" else (" reads",)
    return any(f"{party}{verb} {of}".strip() in holders(text) for verb in verbs for of in ([name] if name else objects_of(question)))


def trace_of(question, text):
    """The rows of a text's trace: (party, the object's name, act, what the words hold, by name and word, how the call goes on)."""
    head, *rows = run("./sync-trace", text).stdout.splitlines()
    titles, at = head.split()[3:], [found.start() for found in re.finditer(r"\S+", head)][3:]
    for row in rows:
        party, act, *cells, _, call = (row[start:end].strip() for start, end in zip(at, [*at[1:], None]))
        name, _, act = ("", "", act) if "" in objects_of(question) else act.partition(": ")
        words = {}
        for title, cell in zip(titles[2:-2], cells):
            parts = ["word", *cell.split()]
            words |= {(title.rpartition(".")[0], word): int(value) for word, value in zip(parts[::2], parts[1::2])}
        yield party, name, act, words, call


def watched(kind, call, act):
    """The word that a wait closure watches which a call asks after this act."""
    if kind == "rwwriter" and call == "write_lock":
        return "counter"
    return "value" if kind == "condvar" and act.startswith(("load value", "exchange value")) else "word"


def woken(kind, call, act):
    """The word that a wake is of."""
    if kind == "rwwriter" and act == "wake one":
        return "counter"
    return "value" if kind == "condvar" and call.startswith("notify") else "word"


def fallen_asleep(ways, words):
    """The ways in which closures that were asked may have fallen asleep by now."""
    for party in {party for way in ways for party in dict(way)}:
        more = set()
        for way in ways:
            rests = dict(way)
            what = rests.get(party)
            if what and what[0] == "asked" and words[what[1]] == what[2]:
                more.add(tuple(sorted({**rests, party: ("asleep", what[1])}.items())))
        ways = ways | more
    return ways


def woken_by(way, word, only_one):
    """What a wake of a word makes of a way."""
    asleep = [party for party, what in way if what == ("asleep", word)]
    for some in [[party] for party in asleep] if only_one and asleep else [asleep]:
        yield tuple(sorted((party, ("woken",) if party in some else what) for party, what in way))


def ways_to_sleep(question, text):
    """What the closures that sleep may be about at the end of a text, in each way in which they can have slept and gone on as it says:
    asked, asleep or woken. None, where they cannot have."""
    calls = {}
    ways = {()}
    for party, name, act, words, call in trace_of(question, text):
        kind = objects_of(question)[name]
        if call == "begins":
            calls[party] = act.split()[0]
        if act.startswith("wake "):
            word = (name, woken(kind, calls[party], act))
            ways = {after for way in ways for after in woken_by(way, word, act == "wake one")}
        if act.startswith("its closure answers") and party in sleepers(question):
            goes_on = act.endswith("Continue")
            kept = set()
            for way in ways:
                what = dict(way)[party]
                if not goes_on or what[0] == "woken" or (what[0] == "asked" and words[what[1]] != what[2]):
                    kept.add(tuple(item for item in way if item[0] != party))
            ways = kept
        if call.startswith("waits ") and party in sleepers(question):
            asked = ("asked", (name, watched(kind, calls[party], act)), int(call.split()[1]))
            ways = {tuple(sorted([*way, (party, asked)])) for way in ways}
        ways = fallen_asleep(ways, words)
    return ways


def slept_wrong(question, text, outcome):
    """What is wrong with how closures sleep in a text, whose outcome may say who does so for ever."""
    if not sleepers(question):
        return []
    asleep = [part.split()[0] for part in outcome.split(" | ") if "sleeps for ever" in part]
    for way in ways_to_sleep(question, text):
        if all(dict(way).get(party, ("up",))[0] == "asleep" for party in asleep):
            return []
    return [f"no closure can have slept so: {text}"]


def left_of(question, entries):
    """The calls of each party behind those of it that have begun."""
    left = {}
    for party, call in calls_of(question):
        left.setdefault(party, []).append(call)
    for entry in entries:
        party, _, call = entry.partition(" ")
        if call in left.get(party, []):
            del left[party][: left[party].index(call) + 1]
    return left


def have_ended(question, text, entries, output):
    """Whether no call is under way, and none of those that are left can begin."""
    begun = [entry for entry in entries if tuple(entry.split(" ", 1)) in calls_of(question)]
    if len(begun) != sum(len(answers) for answers in answers_in(output).values()):
        return False
    if variables_of(question):
        return True
    left = left_of(question, entries)
    return all(run("./sync-play", f"{text}{party} {call}\n").returncode == 2 for party in left for call in left[party])


def holds(term, question, text, entries, output):
    """Whether a term holds at the end of the text."""
    if term == "ends":
        return have_ended(question, text, entries, output)
    first, _, what = term.partition(" ")
    # What variables hold, and what parties are about to do to them, no text tells.
    if first == "race" or first in variables_of(question):
        return True
    # Nor what comes in no continuation.
    if term == "stuck" or what in ("stuck", "for ever"):
        return True
    if what == "sleeps for ever":
        return stands(first, entries, output)
    if not first.isdigit():
        name, _, word = first.rpartition(".")
        behind = [line.split() for line in words_in(question, output) if not name or line.startswith(f"{name} ")]
        return any(here == word and value == what for words in behind for here, value in zip(words, words[1:]))
    if what.startswith("holds "):
        return has_hold(question, text, first, what.removeprefix("holds "))
    # Of which object a call of the party has answered, or waits, no text tells.
    what = what.rpartition(".")[2]
    if what == "aborted":
        return f"{first} abort" in entries
    if what == "waits":
        return stands(first, entries, output)
    return what in answers_in(output).get(first, [])


def wrong_outcomes(question, answer):
    """What is wrong with the lines of an answer to a question that asks for nothing."""
    wrong = []
    for line in answer.splitlines()[:-1]:
        outcome, _, text = line.partition(": " if line.startswith(".. and ") else " : ")
        entries = text.split(" / ") if text else []
        played = run("./sync-play", "\n".join([*head_of(question), *entries]) + "\n")
        outcome = " | ".join(part for part in outcome.split(" | ") if not part.endswith(COURSES))
        if line.startswith(".. and "):
            wrong += [played.stderr.strip()] if played.returncode else []
        elif variables_of(question):
            if played.returncode != 0 or not is_told_client(question, entries, played.stdout, outcome):
                wrong.append(f"{text}: {played.stderr.strip() or played.stdout}, and not {outcome}")
        elif played.returncode != 0 or told(question, entries, played.stdout) != outcome:
            wrong.append(f"{text}: {played.stderr.strip() or told(question, entries, played.stdout)}, and not {outcome}")
        wrong += slept_wrong(question, "\n".join([*head_of(question), *entries]) + "\n", outcome) + opened_wrong(question, entries)
    return wrong


def opened_wrong(question, entries):
    """What is wrong where a text does not begin with the opening."""
    opening = opening_of(question)
    return [] if entries[: len(opening)] == opening else [f"{' / '.join(entries)} does not begin with the opening"]


def wrong_terms(question, answer, terms):
    """What is wrong with a text that is to show a condition."""
    if answer.startswith(("never ", "never:")):
        return []
    head = head_of(question)
    if answer.splitlines()[: len(head)] != head:
        return [f"it does not begin with {' / '.join(head)}"]
    entries = answer.splitlines()[len(head) :]
    played = run("./sync-play", answer)
    if played.returncode != 0:
        return [played.stderr.strip()]
    wrong = [f"{term} does not hold at the end of the text" for term in terms if not holds(term, question, answer, entries, played.stdout)]
    return wrong + slept_wrong(question, answer, "") + opened_wrong(question, entries)


def main():
    question, answer = (open(file, encoding="utf-8").read() for file in sys.argv[1:])
    if question.startswith("object "):
        wrong = own_locks.wrong_answer("\n".join(question.splitlines()[1:-1]), answer.splitlines())[1] if answer else None
        if wrong:
            print(wrong)
        return 1 if wrong else 0
    question = spread(question)
    terms = condition_of(question) if answer else None
    wrong = wrong_outcomes(question, answer) if terms is None else wrong_terms(question, answer, terms)
    for words in wrong:
        print(words)
    return 1 if wrong else 0


sys.exit(main())
