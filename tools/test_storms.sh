# The storms in full: ten times as many turns as `rt ci` runs. Not part of the whole test; a minute or a few.
test_storms() {
    local line
    if ! (cd crates/test_storm && rt run) <crates/test_storm/stdin >/dev/null 2>"$room/err"; then
        fail storms "$(tail -n 3 -- "$room/err")"
        return
    fi
    echo 10000 | timeout 600 crates/test_storm/out/test_storm >"$room/out" 2>"$room/err"
    status=${PIPESTATUS[1]}
    cat -- "$room/out"
    sed 's/00 calls/000 calls/' crates/test_storm/stdout >"$room/storms"
    judge storms 0 "$room/storms" /dev/null
}
