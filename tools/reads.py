"""What the kit's gate asks of each crate's text before it proves anything, asked of the kit's own functions. Prints 'ok' for each crate, or what is wrong."""

import contextlib
import importlib.machinery
import importlib.util
import io
import os
import re
import shutil
import sys
import tempfile
from types import SimpleNamespace


def kit():
    """The kit's command, as a module."""
    path = os.path.realpath(shutil.which("rt") or sys.exit("rt is not on the PATH"))
    loader = importlib.machinery.SourceFileLoader("rt", path)
    made = importlib.util.module_from_spec(importlib.util.spec_from_loader("rt", loader))
    sys.dont_write_bytecode = True
    loader.exec_module(made)
    return made


def asked(rt, crate):
    """What is wrong with a crate's text, and with its edits."""
    rt.rtlib.stop_on_links(crate.folder)
    rt.rtlib.stop_on_text(crate, "verdict")
    rt.stop_on_words(crate)
    code = rt.rtlib.code_of(crate.folder)
    if re.search(rt.RENAMES, code):
        return "it renames std, or takes it whole"
    if re.search(rt.IGNORED, code):
        return "it has a test under #[ignore]"
    beyond = [it for it, words in rt.REACHES.items() if it not in crate.allowed and re.search(words, code)]
    if beyond:
        return f"it names what only the handle {beyond[0]} reaches"
    good, bad = rt.edits_of(SimpleNamespace(folder=crate.folder))
    return "; ".join([*bad, *(f"{os.path.basename(it)}: {why}" for it in good if (why := rt.read_edit(it, crate.folder)[1]))])


def said(ask):
    """What is wrong, as the kit's functions say it, which end the program there."""
    told = io.StringIO()
    try:
        with contextlib.redirect_stdout(told), contextlib.redirect_stderr(told):
            return ask()
    except SystemExit as it:
        return told.getvalue().strip() or str(it)


def main():
    rt = kit()
    # of a copy: beside the checkout's history there are copies of the crates, which it would find
    with tempfile.TemporaryDirectory() as room:
        shutil.copytree("crates", f"{room}/copy/crates", ignore=shutil.ignore_patterns("out"))
        for name in ("crates.txt", "HANDLES"):
            shutil.copy(name, f"{room}/copy")
        os.chdir(f"{room}/copy")
        rt.Crate.allowed = rt.handles_of(os.getcwd())
        # some kits ask where to put what earlier runs left
        aside = [room] * (rt.crates_of.__code__.co_argcount - 1)
        crates = said(lambda: rt.crates_of(os.getcwd(), *aside))
        if isinstance(crates, str):
            print(f"crates: {crates}")
            return
        for crate in crates:
            wrong = said(lambda: asked(rt, crate))
            print(f"{crate.name}: {' '.join(wrong.split())}" if wrong else "ok")


main()
