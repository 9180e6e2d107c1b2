# All examples, the texts of texts/, and random ones, played on the Rust crate and on the model, step by step. Says how many texts, steps
# and answers were compared, and how many texts differ by which row of docs/DIFFERENCES.md; and the wake that is lost there, drawn. It is skipped where
# rustc or the crate is wanting.
test_conform() {
    local why
    why=$(conform/build 2>&1)
    status=$?
    if ((status == 4)); then
        skip conform "$why"
    elif ((status)); then
        fail conform/build "$why"
    elif is_built sync-play && is_built sync-trace; then
        timeout 1800 python3 conform/compare.py 200 >"$room/out" 2>"$room/err"
        status=$?
        cat -- "$room/out"
        if [[ $(tail -n 1 -- "$room/out") =~ ^([0-9]+)\ texts,.*\ ([0-9]+)\ unexplained$ ]]; then
            passed=$((passed + BASH_REMATCH[1] - BASH_REMATCH[2]))
        fi
        if ((status)); then
            fail conform "it ended with status $status; it said: $(tail -n 3 -- "$room/err")"
        fi
        if is_built sync-draw; then
            attempt conform/draw
            judge conform/draw 0 docs/pictures/rwwriter-lost-wake.svg /dev/null
        fi
    fi
}
