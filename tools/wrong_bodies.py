"""Prints the table of the must-fail edits of all crates, or of these: python3 tools/wrong_bodies.py [NAME ..]

Each is a plausible mistake or a cheat: the code still compiles, and the prover has to refuse it. What an edit turns is read from its file. What
refused it is what tools/prove.py found when it last tried the edit in this checkout: the function whose goal stayed open, and its clause; of an edit
of definitions and code alike what is no longer proved of them, as the law of a wrong table.
"""

import glob
import json
import os
import re
import sys

import edits
import prove

MOST = 90


def cut(old, new):
    """Where two texts differ, with a little around it."""
    start = 0
    while start < min(len(old), len(new)) and old[start] == new[start]:
        start += 1
    end = 0
    while end < min(len(old), len(new)) - start and old[-1 - end] == new[-1 - end]:
        end += 1
    start = max(0, re.search(r"[\w.:]*\W*\w*$", old[:start]).start())
    end = len(re.match(r"\w*", old[len(old) - end :])[0]) if end else 0
    tail = lambda text: text[start : len(text) - max(0, len(text) - start - MOST)]
    return shown(tail(old)), shown(tail(new))


def shown(code):
    """Code, as a table has it."""
    code = code.strip().replace("|", "\\|")
    return f"`{code}`" if code and "`" not in code else code or "nothing"


def turned(crate, name):
    """What an edit turns."""
    pairs, path, old = [], "", ""
    for line in edits.text_of(f"crates/{crate}/must-fail/{name}").split("\n"):
        if line.startswith("file: "):
            path = line[6:].strip()
        elif line.startswith("old: "):
            old = line[5:].strip()
        elif line.startswith("new:"):
            pairs.append((path, *cut(old, line[4:].strip())))
    functions = sorted(edits.Edit(f"crates/{crate}", name).functions)
    where = f"`{functions[0]}`: " if len(functions) == 1 else ""
    kinds = sorted({"definitions" if path.startswith("specs/") else "proofs" if path.startswith("proofs/") else "code" for path, _, _ in pairs})
    more = f"; in all {len(pairs)} places, {' and '.join(kinds)}" if len(pairs) > 1 else ""
    return f"{where}{pairs[0][1]} becomes {pairs[0][2]}{more}"


def main(names):
    top = os.path.dirname(os.path.dirname(os.path.realpath(__file__)))
    os.chdir(top)
    kept = f"{prove.lanes_at(top)[0]}/refused.json"
    reasons = json.loads(edits.text_of(kept)) if os.path.exists(kept) else {}
    for crate in names or prove.crates_of(top):
        found = sorted(glob.glob(f"crates/{crate}/must-fail/*.edit"))
        if found:
            print(f"\n## `{crate}`\n\n| Edit | What it turns | What refuses it |\n|---|---|---|")
        for name in map(os.path.basename, found):
            stem = name.removesuffix(".edit")
            print(f"| `{stem}` | {turned(crate, name)} | {reasons.get(f'{crate}/{stem}', 'it was not tried in this checkout')} |")


if __name__ == "__main__":
    main(sys.argv[1:])
