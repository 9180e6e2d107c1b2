# The kit's own gate, from nothing, which tries each edit alone. Its last line counts what passed and failed. It goes by a copy, since it would take the
# copies beside the checkout's history for crates of the repository.
test_anew() {
    local ended last
    mkdir -- "$room/anew"
    git ls-files -z -- HANDLES crates.txt crates | xargs -0 cp --parents -t "$room/anew" --
    (cd -- "$room/anew" && rt ci --anew) | tee -- "$room/ci"
    ended=${PIPESTATUS[0]}
    last=$(tail -n 1 -- "$room/ci")
    if [[ ! $last =~ ^([0-9]+)\ passed,\ ([0-9]+)\ failed$ ]]; then
        fail "rt ci" "it ended with status $ended, and without its last line"
        return
    fi
    passed=$((passed + BASH_REMATCH[1]))
    failed=$((failed + BASH_REMATCH[2]))
    if ((ended != 0 && BASH_REMATCH[2] == 0)); then
        fail "rt ci" "it ended with status $ended, and says that nothing failed"
    fi
}
