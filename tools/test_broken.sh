# Texts that are broken at random: the first two thousand of those that `python3 tools/broken_texts.py` plays. And long texts: the time and the
# memory of each program grow as the text.
test_broken() {
    local program
    if is_built sync-play; then
        attempt python3 tools/broken_texts.py 2000 sync-play
        judge_line "broken texts" 0 "2000 broken texts, 0 wrong" ""
    fi
    for program in sync-play sync-trace sync-draw; do
        if is_built "$program"; then
            attempt python3 tools/linear_texts.py "$program"
            judge_line "$program: long texts" 0 "6 growths, 0 wrong" ""
        fi
    done
}
