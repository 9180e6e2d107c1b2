"""A law and the table that it judges have no definition in common: a wrong one would turn both. Prints a line for each file of the
primitives' definitions, and for each import that is planted to try this: 'ok', or what is wrong."""

import glob
import re

IMPORT = re.compile(r"^(?:unfoldable )?(?:pub )?use Rattle\.(model_\w+)\.specs\.(\S+?)(?:\.\{(.*)\})?(?: as \w+)?$", re.MULTILINE)


def imports(text):
    """What the text takes of each primitive's modules, what comes through a crate's `Names` from where it comes."""
    for crate, module, names in IMPORT.findall(text):
        if module != "Names":
            yield crate, module, names
            continue
        for of, there, passed in IMPORT.findall(open(f"crates/{crate}/specs/Names.antt", encoding="utf-8").read()):
            if taken := [it for it in passed.split(", ") if it.split(" as ")[-1] in names.split(", ")]:
                yield of, there, ", ".join(taken)


def wrong(file, text):
    """What the file takes over that it has to tell by itself: a law from a table all but the table, a table from a law anything."""
    for crate, module, names in imports(text):
        if crate == "model_events" or module.startswith("declared."):
            continue
        if file.endswith("/Table.antt"):
            if module != "Table":
                return f"it imports of {crate}'s {module}"
        elif module.split(".")[0] == "Table":
            for name in names.split(", "):
                if not re.fullmatch(r"\w+_table(?: as \w+)?", name):
                    return f"it imports {name or 'all'} of {crate}'s Table"


def report(label, said):
    print(f"{label}: {said}" if said else "ok")


for path in sorted(set(glob.glob("crates/model_*/specs/**/*.antt", recursive=True)) - set(glob.glob("crates/model_*/specs/Names.antt"))):
    report(path, wrong(path, open(path, encoding="utf-8").read()))

PLANTED = [
    ("a/Law.antt", "model_rw_writer.specs.Table.{lets_mark, rw_writer_table}"),
    ("a/Marks.antt", "model_rw_writer.specs.Table.{is_mark as is_one_more}"),
    ("a/Law.antt", "model_rw_writer.specs.Table as table"),
    ("a/Table.antt", "model_rw_writer.specs.Rounds.{with_arrival}"),
    ("a/Law.antt", "model_condvar.specs.Names.{mutex_begins}"),
]
for path, module in PLANTED:
    said = wrong(path, f"use Rattle.std.specs.Prelude.{{ℕ}}\nuse Rattle.{module}\n")
    report(f"{module} in {path}", None if said else "it is let through")
