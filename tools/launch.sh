# Runs a program of this repository, or proves and builds it.
#
# Sourced, with the call's arguments, by a script at the top that bears the program's name and sets `top`, the repository's folder,
# `crate`, the program's, and `does`, what it does, in a few words; `reads` and `usage`, where it reads no schedule text: what it
# reads, and the file that says how that is written; `arguments`, where it is called with some; `takes`, an argument that a caller may give
# it; `also`, a further form of call; and `advises`, a program that says more of a text with a fault.
#
# A program that stands is run, and one whose sources are no longer those that it was built of is built again first. Where none has been
# built, the sources are run as they are, unproved, by `rt try`: each call takes up to a minute, and a build many.
# Status: the program's own, or 3 where it could not be built or started, or the arguments are none that are known.
set -euo pipefail
shopt -s execfail lastpipe globstar nullglob

name=$(basename -- "$0")
reads=${reads-a schedule text}
usage=${usage-tools/texts.txt}
[[ -v arguments ]] || arguments=()
given=()
folder=$top/crates/$crate
program=$folder/out/$crate
# The sums of the sources and of the program that was built of them. `rt ci` removes it with all that `out` has.
built_of=$folder/out/built_of

say() {
    printf '%s: %s\n' "$name" "$1" >&2 || true
}

fail() {
    say "$1"
    exit 3
}

# Sets `crates`: this program's and each of this repository that it stands on, each after those that it stands on itself; `lines`, what
# crates.txt says of them; and `sources`, all that is in their folders.
find_sources() {
    local -A below=() seen=()
    local line dep part
    while IFS= read -r line; do
        line=${line%%#*}
        if [[ $line == *:* ]]; then
            below[${line%%[:[:space:]]*}]=${line#*:}
            line_of[${line%%[:[:space:]]*}]=$line
        fi
    done <crates.txt
    crates=()
    add_crate "$crate"
    lines=()
    sources=()
    for dep in "${crates[@]}"; do
        lines+=("${line_of[$dep]}")
        for part in src specs proofs; do
            sources+=("crates/$dep/$part"/**)
        done
    done
}

# Adds a crate to `crates`, after all that it stands on: add_crate CRATE.
add_crate() {
    local dep
    seen[$1]=seen
    for dep in ${below[$1]-}; do
        if [[ -v below[$dep] && ! -v seen[$dep] ]]; then
            add_crate "$dep"
        fi
    done
    crates+=("$1")
}

sum_of_sources() {
    local files=() source
    for source in "${sources[@]}"; do
        if [[ -f $source ]]; then
            files+=("$source")
        fi
    done
    { printf '%s\n' "${lines[@]}" && sha256sum -- "${files[@]}"; } | LC_ALL=C sort | sha256sum
}

sum_of_program() {
    sha256sum <"$program"
}

is_current() {
    local source
    if [[ -r $built_of ]]; then
        [[ $(<"$built_of") == "$sum"$'\n'"$(sum_of_program)" ]]
    else
        # `rt ci` or `rt run` has built it.
        for source in crates.txt "${sources[@]}"; do
            if [[ $source -nt $program ]]; then
                return 1
            fi
        done
    fi
}

# Reads what is said of a build into `said`, and passes it on once that takes `patience` seconds; that it waits for another, at once.
listen() {
    local line part= status
    SECONDS=0
    while true; do
        if [[ -n $patience ]] && ((SECONDS >= patience)); then
            patience=
            say "building the program"
        fi
        status=0
        IFS= read -r -t 1 line || status=$?
        part+=$line
        if ((status == 0)); then
            said+=("$part")
            if [[ -z $patience || $part == waiting* ]]; then
                say "$part"
            fi
            part=
        elif ((status <= 128)); then
            break
        fi
    done
}

need_rt() {
    command -v rt >/dev/null || fail "the program has to be built first, and the kit's command rt is not on PATH"
}

# Proves all that the program stands on, side by side, and builds it. Says how far that is, where it takes seconds.
build() {
    need_rt
    mkdir -p -- "$folder/out" 2>/dev/null && [[ -w $folder/out ]] ||
        fail "the program has to be built first, and $folder/out cannot be written"
    local said=() patience=5
    if [[ ! -x $program ]]; then
        patience=
        say "building the program; the first time this proves everything it stands on, which takes tens of minutes"
    fi
    if ! { python3 tools/prove.py "programs=$crate" </dev/null 2>&1; } | listen; then
        printf '%s\n' "${said[@]}" | tail -n 20 >&2 || true
        { printf '%s\n' "${said[@]}" >"$folder/out/build.log"; } 2>/dev/null || true
        fail "the program was not built; all that was said of it is in $folder/out/build.log"
    fi
    [[ -x $program ]] || fail "tools/prove.py ended well, but left no $program"
    # The sum was taken before the build, so what was edited meanwhile is built at the next call.
    { printf '%s\n' "$sum" "$(sum_of_program)" >"$built_of"; } 2>/dev/null || true
}

# Runs the sources as they are, with the caller's streams. rt tells on standard error how the run ended, behind what the program writes there.
play_unproved() {
    local said=() line
    need_rt
    say "not built yet: each call runs the sources, unproved, in up to a minute; ./$name --build proves and builds the program, once"
    { { cd -- "$folder" && rt try ${given:+-- "${given[@]}"}; } 2>&1 >&3 3>&- | readarray -t said; } 3>&1 || true
    if ((${#said[@]} == 0)) || [[ ! ${said[-1]} =~ ^run=ended\ status=([0-9]+) ]]; then
        printf '%s\n' "${said[@]}" | { grep -v '^|' || true; } | tail -n 5 >&2 || true
        fail "that gave no answer within its limits (a minute, 1 MiB of output): build the program first, by ./$name --build"
    fi
    for line in "${said[@]}"; do
        if [[ $line != interpreter:* && $line != checked:* && $line != run=* ]]; then
            printf '%s\n' "$line" >&2 || true
        fi
    done
    if ((BASH_REMATCH[1] == 2)); then
        name_adviser
    fi
    exit "${BASH_REMATCH[1]}"
}

# Of a text with a fault: who says more, where a person reads.
name_adviser() {
    if [[ -n ${advises-} && -t 2 ]]; then
        echo "./sync-trace < FILE says what would be right" >&2
    fi
}

# Runs the program where standard error is a terminal, and says there what would be right of a text with a fault.
play_for_a_person() {
    local text status=0
    text=$(mktemp) || return 0
    trap 'rm -f -- "$text"' EXIT
    cat >"$text"
    "$program" <"$text" || status=$?
    if [[ $(head -n 1 -- "$text") == object* ]]; then
        exit "$status"  # of a lock of one's own it says nothing
    elif ((status == 2)) && [[ -x $advises ]]; then
        { "$advises" <"$text" 2>&1 >/dev/null || true; } | tail -n +2 >&2
    elif ((status == 2)); then
        name_adviser
    fi
    exit "$status"
}

tell_usage() {
    printf '%s\n' "$name: $does" "    ./$name < FILE      does so with $reads, read from standard input" \
        "    ./$name --build     proves and builds the program, where it is not built of these sources" "${also:+$also$'\n'}"
    cat -- "$usage"
}

cd -- "$top" || fail "$top cannot be entered"
case "$#${1-}" in
    0 | 1--build) ;;
    1"${takes---build}")
        given=("$1")
        arguments+=("$1")
        ;;
    1-h | 1--help)
        tell_usage
        exit 0
        ;;
    *)
        say "it reads $reads from standard input: ./$name < FILE; ./$name --help says more"
        exit 3
        ;;
esac
declare -A line_of=()
find_sources
sum=$(sum_of_sources) || fail "the sources below $top cannot be read"
if [[ ${1-} == --build ]]; then
    if [[ ! -x $program ]] || ! is_current; then
        build
    fi
    say "it is built and proved"
    exit 0
fi
if [[ -t 0 ]]; then
    say "reading $reads from the terminal, up to its end (Ctrl-D); ./$name --help says what that is"
fi
if [[ ! -x $program ]]; then
    play_unproved
elif ! is_current; then
    build
fi
if [[ -n ${advises-} && -t 2 ]]; then
    play_for_a_person
fi
exec "$program" "${arguments[@]}"
fail "$program cannot be started"
