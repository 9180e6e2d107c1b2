"""The page docs/play.html, which plays, traces, draws and explores: tools/play_page.html, the page of steps, the examples, and the programs as WebAssembly.

    tools/play_page.py             writes it; the programs are taken from it where they are of these sources, and else proved and built
    tools/play_page.py --same      whether it is what that would write, of these sources
    tools/play_page.py --built     whether the programs, built anew, are those that it has; with status 3 if another kit built those

The kit has no heap for WebAssembly. So it proves and builds the library sync_page for x86-64, and the module that it hands to its clang is kept, and
compiled for wasm64, beside the heap of tools/play_page.c. Nothing proves that it means the same there; ./test pages compares what it writes.
"""

import base64
import glob
import gzip
import hashlib
import json
import os
import re
import shutil
import subprocess
import sys
import tempfile

PAGE = "docs/play.html"
WRITES = "python3 tools/play_page.py writes it"
EXPORTS = "page_play", "page_trace", "page_draw", "page_explore", "page_moves"
DATA_LAYOUT = 'target datalayout = "e-m:e-p:64:64-p10:8:8-p20:8:8-i64:64-i128:128-n32:64-S128-ni:1:10:20"'


def read(file):
    with open(file, encoding="utf-8") as it:
        return it.read()


def crates_below(crate):
    """This crate, and those of the repository that it stands on."""
    below = {line.split()[0].rstrip(":"): line.split(":")[1].split() for line in read("crates.txt").splitlines() if ":" in line and line[0] != "#"}
    found = [crate]
    for it in found:
        found += [other for other in below.get(it, []) if other in below and other not in found]
    return sorted(found)


def sum_of_sources():
    files = [file for crate in crates_below("sync_page") for file in sorted(glob.glob(f"crates/{crate}/src/**/*.rt", recursive=True))]
    lines = [f"{file} {hashlib.sha256(read(file).encode()).hexdigest()}\n" for file in [*files, "tools/play_page.c", "tools/play_page.py"]]
    return hashlib.sha256("".join(lines).encode()).hexdigest()


def run(*command, **more):
    return subprocess.run(command, check=True, **more)


def keeping(kit, room):
    """The kit, by links, with a clang that keeps the module which it is to compile."""
    for folder in ("bin", "toolchain/bin"):
        os.makedirs(f"{room}/kit/{folder}")
        for name in os.listdir(f"{kit}/{folder}"):
            if name in ("rt", "rtlib.py"):
                shutil.copy(f"{kit}/{folder}/{name}", f"{room}/kit/{folder}")
            elif name != "clang":
                os.symlink(f"{kit}/{folder}/{name}", f"{room}/kit/{folder}/{name}")
    for name in os.listdir(kit):
        if not os.path.exists(f"{room}/kit/{name}"):
            os.symlink(f"{kit}/{name}", f"{room}/kit/{name}")
    os.symlink(f"{kit}/toolchain/lib", f"{room}/kit/toolchain/lib")
    with open(f"{room}/kit/toolchain/bin/clang", "w", encoding="utf-8") as it:
        it.write(f'#!/bin/bash\nfor it; do [[ $it == *.bc ]] && cp -- "$it" {room}/module.bc; done\nexec {kit}/toolchain/bin/clang "$@"\n')
    os.chmod(f"{room}/kit/toolchain/bin/clang", 0o755)
    return f"{room}/kit/bin/rt"


def lay_out(room, git):
    """The crates that the library stands on, with what is proved of them here or on the shelf of tools/prove.py."""
    os.makedirs(room)
    shutil.copy("HANDLES", room)
    crates = crates_below("sync_page")
    with open(f"{room}/crates.txt", "w", encoding="utf-8") as it:
        it.writelines(line for line in read("crates.txt").splitlines(True) if line.split()[0].rstrip(":") in crates)
    for crate in crates:
        shutil.copytree(f"crates/{crate}", f"{room}/crates/{crate}", ignore=shutil.ignore_patterns("out", "must-fail"))
        for part in ("rlib", "incremental"):
            found = [it for it in (f"crates/{crate}/out/{part}", f"{git}/lanes/proved/{crate}/{part}") if os.path.exists(it)]
            os.makedirs(f"{room}/crates/{crate}/out", exist_ok=True)
            if found:
                run("cp", "-al", found[0], f"{room}/crates/{crate}/out/{part}")


def built():
    """The programs as WebAssembly, packed."""
    kit = os.path.dirname(os.path.realpath(run("rt", "doc", capture_output=True, text=True).stdout.strip()))
    clang = f"{kit}/toolchain/bin/clang"
    git = os.path.abspath(run("git", "rev-parse", "--git-common-dir", capture_output=True, text=True).stdout.strip())
    with tempfile.TemporaryDirectory(dir=git) as room:
        lay_out(f"{room}/repository", git)
        run(keeping(kit, room), "lib", cwd=f"{room}/repository/crates/sync_page", stdout=sys.stderr)
        run(clang, "-x", "ir", f"{room}/module.bc", "-S", "-emit-llvm", "-Xclang", "-disable-llvm-passes", "-o", f"{room}/module.ll")
        module = re.sub(r' "probe-stack"="[^"]*" "stack-probe-size"="\d*" "target-cpu"="[^"]*"', "", read(f"{room}/module.ll"))
        module = re.sub(r"^target datalayout = .*", DATA_LAYOUT, module, flags=re.M)
        module = re.sub(r"^target triple = .*", 'target triple = "wasm64-unknown-unknown"', module, flags=re.M)
        if re.search(r"llvm\.x86|x86_fp80|asm ", module):
            sys.exit("the module has code for x86-64 alone")
        with open(f"{room}/module.ll", "w", encoding="utf-8") as it:
            it.write(module)
        common = ["--target=wasm64-unknown-unknown", "-mcpu=lime1", "-ffunction-sections", "-fdata-sections", "--no-default-config", "-c"]
        run(clang, *common, "-mllvm", "-expand-div-rem-bits=64", "-mllvm", "-trap-unreachable", "-Os", "-x", "ir", f"{room}/module.ll", "-o", f"{room}/module.o")
        run(clang, *common, "-O2", "-ffreestanding", "-fno-builtin", "-nostdinc", "tools/play_page.c", "-o", f"{room}/runtime.o")
        os.symlink(clang, f"{room}/wasm-ld")
        exports = [f"--export={it}" for it in EXPORTS]
        options = ["-mwasm64", "--no-entry", "--stack-first", "-z", "stack-size=4194304", "--max-memory=4294967296", "--gc-sections", "--strip-all"]
        run(f"{room}/wasm-ld", *options, *exports, f"{room}/module.o", f"{room}/runtime.o", "-o", f"{room}/module.wasm")
        with open(f"{room}/module.wasm", "rb") as it:
            return base64.b64encode(gzip.compress(it.read(), 9, mtime=0)).decode()


def address(text):
    """A schedule in the page's address: its lines parted by /, its words by +."""
    return "#play/" + "/".join("+".join(line.split()) for line in text.splitlines() if line.strip())


def unpacked(packed):
    return gzip.decompress(base64.b64decode(packed))


def kit_at_hand():
    return run("rt", "version", capture_output=True, text=True).stdout.strip()


def page_of(packed, total, kit):
    examples = [[kind, os.path.basename(file)[:-4], read(file)] for kind, names in (("play", "*.txt"), ("explore", "explore/*.txt")) for file in sorted(glob.glob(f"examples/{names}"))]
    shown, steps = (json.dumps(it, separators=(",", ":")).replace("</", "<\\/") for it in (examples, read("tools/step_page.html")))
    return read("tools/play_page.html").replace("/* examples */", shown[1:-1]).replace("/* step page */''", steps).replace("<!-- sources -->", total).replace("<!-- kit -->", kit).replace("<!-- module -->", packed)


def main():
    wanted = sys.argv[1:]
    old = read(PAGE) if os.path.exists(PAGE) else ""
    packed, found = (re.search(pattern, old) for pattern in (r"const packed = '([^']*)'", r"of the sources ([0-9a-f]{64}), built by (.*), as"))
    total = sum_of_sources()
    is_current = packed is not None and found is not None and found[1] == total
    if wanted == ["--same"]:
        if not old:
            sys.exit(f"it is not there: {WRITES}")
        if not is_current:
            sys.exit(f"its programs are of other sources than these: {WRITES}")
        if page_of(packed[1], total, found[2]) != old:
            sys.exit(f"its examples or scripts are others than these: {WRITES}")
    elif wanted == ["--built"]:
        if found and found[2] != kit_at_hand():
            print(f"its programs were built by {found[2]}, and {kit_at_hand()} is at hand")
            return 3
        if not packed or unpacked(built()) != unpacked(packed[1]):
            sys.exit(f"it has other programs than are built of these sources: {WRITES}")
    elif wanted:
        sys.exit(__doc__)
    else:
        if not is_current:
            # Else the library would be proved where nothing is kept.
            run(sys.executable, "tools/prove.py", "proofs=sync_page")
        page = page_of(packed[1], total, found[2]) if is_current else page_of(built(), total, kit_at_hand())
        with open(PAGE, "w", encoding="utf-8") as it:
            it.write(page)
    return 0


if __name__ == "__main__":
    sys.exit(main())
