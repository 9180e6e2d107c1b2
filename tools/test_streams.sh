# The programs where memory, input or output are wanting: each ends with its line on standard error and its status, and none crashes. And a text
# of many pieces, each way.
test_streams() {
    local line player ending
    attempt python3 tools/growths.py
    judge_line "calls that take memory" 0 "37 calls that take memory, 0 wrong" ""
    long_text >"$room/long.txt"
    head -n 401 "$room/long.txt" >"$room/some.txt"
    for line in "${players[@]}"; do
        read -r player ending <<<"$line"
        if is_built "$player"; then
            plays_where_wanting "$player" "$ending"
        fi
    done
    if is_built "$drawer"; then
        plays_where_wanting "$drawer" out
        draws_at_length
    fi
    if is_built sync-explore; then
        wants_streams sync-explore out examples/explore/mutex-waiter-gives-up.txt examples/explore/mutex-fault
        sweeps_memory sync-explore examples/explore/mutex-waiter-gives-up.txt
        sweeps_memory sync-explore examples/explore/own-three-states.txt
    fi
    if is_built sync-play; then
        plays_at_length
    fi
}

# A program that plays texts, or draws them: plays_where_wanting PROGRAM ENDING.
plays_where_wanting() {
    wants_streams "$1" "$2" examples/mutex-abort.txt examples/mutex-fault
    sweeps_memory "$1" "$room/some.txt"
    attempt bash -c '"$0" | head -c 1 >/dev/null; exit "${PIPESTATUS[0]}"' "./$1" <"$room/long.txt"
    judge_line "$1: the reader of standard output leaves" 1 "" "writing failed"
}

# wants_streams PROGRAM ENDING TEXT FAULT: TEXT has no fault, FAULT.txt has one, and the program writes FAULT.ENDING of it.
wants_streams() {
    attempt env LC_ALL=C prlimit --as=$((48 << 20)) "./$1" < <(yes '' | head -c 64M)
    judge_line "$1: a text that is larger than the memory" 1 "" "no memory"
    attempt bash -c 'exec "$0" <&-' "./$1"
    judge_line "$1: standard input is closed" 1 "" "reading failed"
    attempt "./$1" <examples
    judge_line "$1: standard input is a folder" 1 "" "reading failed"
    attempt bash -c 'exec "$0" >&-' "./$1" <"$3"
    judge_line "$1: standard output is closed" 1 "" "writing failed"
    attempt bash -c 'exec "$0" >/dev/full' "./$1" <"$3"
    judge_line "$1: standard output is full" 1 "" "writing failed"
    attempt bash -c 'exec "$0" 2>&-' "./$1" <"$4.txt"
    judge "$1: a fault, and standard error is closed" 2 "$4.$2" /dev/null
}

# Under each limit of memory it says that there is none, or writes all: sweeps_memory PROGRAM TEXT.
sweeps_memory() {
    "./$1" <"$2" >"$room/some.out" 2>"$room/err"
    attempt python3 tools/sweep_memory.py "$1" "$2" "$room/some.out"
    if [[ $status == 0 ]]; then
        succeed
    else
        fail "$1: limits of memory" "$(tail -n 1 -- "$room/out")"
    fi
}

plays_at_length() {
    long_output >"$room/long.out"
    attempt ./sync-play <"$room/long.txt"
    judge "sync-play: a long text" 0 "$room/long.out" /dev/null
    attempt ./sync-play < <(dd if="$room/long.txt" ibs=64k obs=7 status=none)
    judge "sync-play: a long text in pieces of 7 bytes" 0 "$room/long.out" /dev/null
    attempt bash -c '"$0" | dd ibs=7 obs=64k status=none; exit "${PIPESTATUS[0]}"' ./sync-play <"$room/long.txt"
    judge "sync-play: a long text, written to a reader of pieces of 7 bytes" 0 "$room/long.out" /dev/null
    printf '1 unlock\n' >>"$room/long.txt"
    attempt ./sync-play <"$room/long.txt"
    judge_line "sync-play: a long text with a fault in its last line" 2 "" "line 80002: no hold"
}

# More steps than a picture has rows, and as many parties as there may be.
draws_at_length() {
    local why
    attempt "./$drawer" <"$room/long.txt"
    if [[ $status != 0 ]] || ! why=$(grep -o 'Not drawn: [0-9]* steps' "$room/out"); then
        fail "$drawer: a long text" "it ended with status $status, or does not say what it leaves out"
    elif [[ $why != "Not drawn: 98000 steps" ]]; then
        fail "$drawer: a long text" "it says: $why"
    else
        succeed
    fi
    { echo "mutex 64"; printf '%s try_lock\n' {1..64}; printf '%s run\n' {1..64}; } >"$room/many.txt"
    attempt "./$drawer" <"$room/many.txt"
    if [[ $status != 0 ]] || ! why=$(python3 tools/picture.py "$room/out" 2>&1); then
        fail "$drawer: 64 parties" "it ended with status $status; $why"
    else
        succeed
    fi
}

# 640 KB: a mutex that one party takes and frees 20000 times.
long_text() {
    echo "mutex 1"
    yes $'1 try_lock\n1 run\n1 unlock\n1 run' | head -n 80000
}

# 580 KB: what it prints.
long_output() {
    yes $'1 success\n1 wakes one\n1 done' | head -n 60000
    echo "word 0 failed 0"
}
