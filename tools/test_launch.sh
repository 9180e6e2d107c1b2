# The launcher, in a repository of two crates whose rt and tools/prove.py only pretend: that writes a program, and each notes that it was called.
test_launch() {
    local top=$room/top crate low out tool proves
    crate=$(crate_of sync-play)
    proves="prove programs=$crate"
    low=${crate}_low
    out=$top/crates/$crate/out
    mkdir -p -- "$room/bin" "$top/tools" "$top/crates/$crate/src" "$top/crates/$low/specs" "$top/crates/other/src"
    cp -- sync-play "$top"
    cp -- tools/launch.sh tools/texts.txt "$top/tools"
    printf '%s\n' "# The crates." "$crate may_wait=1: $low std # and a library of the kit" "other: $low" "$low:" >"$top/crates.txt"
    echo first | tee -- "$top/crates/$crate/"{stdin,src/main.rt} "$top/crates/$low/specs/Lib.antt" "$top/crates/other/src/lib.rt" >/dev/null
    pretend
    local PATH=$room/bin:$PATH
    export ROOM=$room

    tells_usage
    plays_unproved
    launches "the first build" "$proves" "building the program; the first time" --build
    launches "a later call starts at once" ""
    tells_a_terminal
    launches "a second build does nothing" "" "it is built" --build
    echo second >"$top/crates/$low/specs/Lib.antt"
    launches "an edit below is built, in silence where it takes seconds" "$proves"
    echo second >"$top/crates/other/src/lib.rt"
    launches "an edit of a crate that the program does not stand on is not" ""
    echo "client: $low" >>"$top/crates.txt"
    launches "nor is a line of crates.txt about another crate" ""
    sed -i -- "s/may_wait=1/may_wait=2/" "$top/crates.txt"
    launches "a line of crates.txt about the program is" "$proves"
    touch -d "+1 day" -- "$top/crates/$crate/src/main.rt"
    launches "a source from the future is not built again" ""
    echo second >"$top/crates/$crate/src/main.rt"
    touch -d "+1 day" -- "$top/crates/$crate/src/main.rt"
    launches "an edit from the future is built" "$proves"
    launches "an edit from the future is built once" ""
    touch -- "$top/crates/$crate/src/main.rt"
    rm -- "$out/built_of"
    echo '#!/bin/sh
echo played' >"$out/$crate"
    launches "what rt ci has built is taken" ""
    advises_a_person
    rm -- "$top/crates/$low/specs/Lib.antt"
    launches "a source that is gone is built" "$proves"
    export PRETENDS=waits
    echo third >"$top/crates/$crate/src/main.rt"
    launches "a wait for another build is told" "$proves" "waiting for another call"
    export PRETENDS=slow
    echo fourth >"$top/crates/$crate/src/main.rt"
    launches "a build that takes seconds is told, and how far it is" "$proves" $'building the program\nsync-play: all is proved'
    export PRETENDS=hangs
    echo fifth >"$top/crates/$crate/src/main.rt"
    is_interrupted
    export PRETENDS=fails
    attempt "$top/sync-play" </dev/null
    judge_line "a failed build" 3 "" "FAILED: it cannot be proved
sync-play: the program was not built; all that was said of it is in $out/build.log"
    unset PRETENDS
    launches "after a failed build the next call builds" "$proves"
    rm -r -- "$out"
    touch -- "$out"
    attempt "$top/sync-play" --build </dev/null
    judge_line "a folder that cannot be written" 3 "" "sync-play: the program has to be built first, and $out cannot be written"
    rm -- "$out" "$room/bin/rt"
    for tool in bash basename dirname env mkdir readlink sha256sum sort timeout; do
        ln -s -- "$(type -P "$tool")" "$room/bin"
    done
    PATH=$room/bin attempt "$top/sync-play" </dev/null
    judge_line "no rt" 3 "" "sync-play: the program has to be built first, and the kit's command rt is not on PATH"
    PATH=$room/bin attempt bash -c 'exec "$0" <&- >&- 2>&-' "$top/sync-play"
    judge_line "no rt, and all streams closed" 3 "" ""
}

# The crate that a script at the top names.
crate_of() {
    local line
    while IFS= read -r line; do
        if [[ $line == crate=* ]]; then
            echo "${line#crate=}"
        fi
    done <"$1"
}

# An rt and a tools/prove.py for test_launch. The first plays a text by writing the text's first line to standard output and its second to
# standard error; its third is the status. The second writes a program.
pretend() {
    cat >"$room/bin/rt" <<'RT'
#!/usr/bin/env bash
echo "$1" >>"$(dirname -- "$0")/calls"
if [[ $1 == try ]]; then
    read -r out && read -r err && read -r status
    echo "$out"
    printf '%s\n' "$err" "interpreter: ended status=$status" "checked: ended status=$status" >&2
    [[ $status == endless ]] && echo "run=no-answer proved=no" >&2 && exit 6
    echo "run=ended status=$status runners=2 proved=no" >&2
    exit "$status"
fi
RT
    cat >"$top/tools/prove.py" <<'PROVE'
import os, sys, time
room, how = os.environ["ROOM"], os.environ.get("PRETENDS")
with open(f"{room}/bin/calls", "a") as calls:
    print("prove", *sys.argv[1:], file=calls)
if how == "waits":
    print("waiting for another call in this checkout to end", flush=True)
elif how == "slow":
    time.sleep(6)
elif how == "hangs":
    open(f"{room}/bin/hangs", "w").close()
    time.sleep(60)
elif how == "fails":
    sys.exit("FAILED: it cannot be proved")
print("all is proved", flush=True)
out = f"crates/{sys.argv[1].partition('=')[2]}/out"
program = f"{out}/{out.split('/')[1]}"
with open(program, "w") as it:
    it.write("#!/bin/sh\necho played\n")
os.chmod(program, 0o755)
PROVE
    chmod +x -- "$room/bin/rt"
}

# One call of the launcher: what it calls, and a part of what it says, or nothing: launches LABEL COMMANDS [WORDS [ARGUMENT]].
launches() {
    local wanted=played commands
    : >"$room/bin/calls"
    if (($# == 4)); then
        wanted=
    fi
    attempt "$top/sync-play" "${@:4}" </dev/null
    commands=$(paste -sd ' ' -- "$room/bin/calls")
    if [[ $status != 0 || $(<"$room/out") != "$wanted" ]]; then
        fail "$1" "it ended with status $status, and wrote: $(<"$room/out") $(<"$room/err")"
    elif [[ $commands != "$2" ]]; then
        fail "$1" "it called '$commands', and not '$2'"
    elif [[ -n ${3-} && $(<"$room/err") != *"$3"* || -z ${3-} && -s $room/err ]]; then
        fail "$1" "it said: $(<"$room/err")"
    else
        succeed
    fi
}

# Where nothing is built the sources are run: the text's output, what the program says, and its status come through.
plays_unproved() {
    local says="sync-play: not built yet: each call runs the sources, unproved, in up to a minute; ./sync-play --build proves and builds the program, once"
    attempt "$top/sync-play" <<<$'1 success\nline 6: waiting\n2'
    judge_line "a text that is played unproved" 2 "1 success" "$says
line 6: waiting"
    attempt "$top/sync-play" <<<$'1 success\n| 1 success\nendless'
    judge_line "a text that is played unproved, and to which rt has no answer" 3 "1 success" "$says
interpreter: ended status=endless
checked: ended status=endless
run=no-answer proved=no
sync-play: that gave no answer within its limits (a minute, 1 MiB of output): build the program first, by ./sync-play --build"
    at_a_terminal "a fault that is told unproved" "$says line 6: waiting ./sync-trace < FILE says what would be right" $'1 success\nline 6: waiting\n2'
    if [[ -e $out ]]; then
        fail "a text that is played unproved" "it left $out"
    fi
}

# `--help` names each object and each call of the examples; other arguments are refused.
tells_usage() {
    local label="--help" text word
    attempt "$top/sync-play" --help </dev/null
    for word in $(sed -E '1s/ .*//; s/^let [^ ]* ([^ ]*).*/\1/; 2,$s/^[^ ]* ([^ .]*\.)?([^ ]*).*/\2/' -s -- examples/*.txt | sort -u); do
        if ! grep -qwe "$word" -- "$room/out"; then
            fail "$label" "it does not name $word"
            return
        fi
    done
    if [[ $status != 0 || -s $room/err ]]; then
        fail "$label" "it ended with status $status"
    else
        succeed
    fi
    attempt "$top/sync-play" examples/mutex-abort.txt </dev/null
    judge_line "an argument" 3 "" "sync-play: it reads a schedule text from standard input: ./sync-play < FILE; ./sync-play --help says more"
}

# On a terminal it says what it waits for.
tells_a_terminal() {
    attempt python3 -c 'import os, subprocess, sys
typed, stdin = os.openpty()
os.write(typed, b"\x04")
sys.exit(subprocess.call(sys.argv[1], stdin=stdin))' "$top/sync-play"
    judge_line "a terminal" 0 played \
        "sync-play: reading a schedule text from the terminal, up to its end (Ctrl-D); ./sync-play --help says what that is"
}

# Where standard error is a terminal, it says of a fault what sync-trace adds; elsewhere its one line alone.
advises_a_person() {
    local tracer=$top/crates/sync_trace_main/out/sync_trace_main
    cp -p -- "$out/$crate" "$room/played"
    printf '%s\n' '#!/bin/sh' 'echo "line 1: no object" >&2' 'exit 2' >"$out/$crate"
    at_a_terminal "a fault, and nothing that says more" "line 1: no object ./sync-trace < FILE says what would be right"
    mkdir -p -- "$(dirname -- "$tracer")"
    printf '%s\n' '#!/bin/sh' 'echo rows' 'printf "%s\n" "line 1: no object" "latch 1" "the object is one of these" >&2' 'exit 2' >"$tracer"
    chmod +x -- "$tracer"
    at_a_terminal "a fault, with what would be right" "line 1: no object latch 1 the object is one of these"
    attempt "$top/sync-play" <<<"latch 1"
    judge_line "a fault that no terminal reads" 2 "" "line 1: no object"
    rm -r -- "$(dirname -- "$(dirname -- "$tracer")")"
    cp -p -- "$room/played" "$out/$crate"
}

# What the launcher says on a terminal, in one line, and its status: at_a_terminal LABEL WORDS [TEXT].
at_a_terminal() {
    attempt python3 -c 'import os, subprocess, sys
shown, stderr = os.openpty()
status = subprocess.run(sys.argv[1], input=sys.argv[2].encode(), stdout=subprocess.DEVNULL, stderr=stderr).returncode
os.close(stderr)
said = b""
try:
    while piece := os.read(shown, 4096):
        said += piece
except OSError:
    pass  # that is how a terminal ends
print(*said.decode().split())
sys.exit(status)' "$top/sync-play" "${3-latch 1}"$'\n'
    judge_line "$1" 2 "$2" ""
}

# A build that is interrupted, as by Ctrl-C, ends at once, and leaves nothing behind.
is_interrupted() {
    local label="an interrupted build" launcher turns=0 left=0 hangs=$room/bin/hangs
    setsid env --default-signal=INT "$top/sync-play" </dev/null >/dev/null 2>&1 &
    launcher=$!
    until [[ -e $hangs ]] || ((turns++ > 100)); do
        sleep 0.1
    done
    kill -INT -- "-$launcher"
    wait "$launcher" 2>/dev/null
    while kill -0 -- "-$launcher" 2>/dev/null && ((left++ < 50)); do
        sleep 0.1
    done
    rm -f -- "$hangs"
    if ((turns > 100)); then
        fail "$label" "it did not begin"
    elif kill -KILL -- "-$launcher" 2>/dev/null; then
        fail "$label" "it goes on"
    elif compgen -G "$out/build.*" >/dev/null; then
        fail "$label" "it left a log"
    else
        succeed
    fi
}
