# README's program in an empty repository, as RUNNING says to put it there, proved at its first check, over what it stands on.

# Puts it there: put_first FOLDER
put_first() {
    local main=$1/crates/my_counter/src
    tools/copy-library "$1" sleeping_guarded >"$room/copied" && mkdir -p -- "$main" &&
        cp -- crates/demo_counter/src/main.rt "$main/main.rt" &&
        echo "Handles allowed: Threads, Wait." >"$1/HANDLES" &&
        echo "my_counter may_wait=2: sleeping_guarded" >>"$1/crates.txt"
}

# Gives it what was proved here of the same crates, which rt takes where their texts are the same: give_kept FOLDER
give_kept() {
    local name kept lanes
    lanes=$(git rev-parse --git-common-dir)/lanes/proved
    for name in $(ls -- "$1/crates"); do
        for kept in "$lanes/$name" "crates/$name/out"; do
            if [[ -d $kept/rlib && ! -e $1/crates/$name/out/rlib ]]; then
                mkdir -p -- "$1/crates/$name/out" && cp -a -- "$kept/rlib" "$1/crates/$name/out/rlib"
            fi
        done
    done
}

# Counts a test that it is the program that README shows, and has no clause.
check_plain() {
    sed -n '/^## Use a lock/,/^## /{/^```rust/,/^```$/{/^```/!p}}' README.md >"$room/shown"
    if [[ -s $room/shown ]] && ! grep -vxFf crates/demo_counter/src/main.rt "$room/shown" && ! grep -nE '\b(requires|ensures|ghost|prove)\b' crates/demo_counter/src/main.rt; then
        succeed
    else
        fail "README's program" "a line of it is not in demo_counter, or it has a clause"
    fi
}

test_first() {
    local here=$room/first
    put_first "$here"
    give_kept "$here"
    check_plain
    limit=7200 attempt env -C "$here/crates/my_counter" rt check
    if ((status == 0)) && grep -q '^logic=proved ' "$room/out"; then
        succeed
    else
        fail "its first check" "it ended with status $status; it said: $(tail -n 3 -- "$room/out" "$room/err")"
    fi
    limit=600 attempt env -C "$here/crates/my_counter" rt run
    if ((status == 0)) && [[ $(<"$room/out") == 4000 ]]; then
        succeed
    else
        fail "the number that it counts to" "it ended with status $status; it said: $(tail -n 3 -- "$room/out" "$room/err")"
    fi
}
