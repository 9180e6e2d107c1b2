# The playground's programs, built anew, are byte for byte those that docs/play.html has, if the same kit built those. And what they write of 500 texts
# and questions, made at random, is what the built programs write. It is skipped where the kit or Chromium is wanting.
test_playground() {
    local program
    if ! command -v rt >/dev/null || ! command -v chromium >/dev/null; then
        skip playground "the kit's rt or chromium is not at hand"
        return
    fi
    limit=3000 attempt python3 tools/play_page.py --built
    if ((status == 3)); then
        skip playground "$(<"$room/out")"
    else
        judge_line "docs/play.html, built anew" 0 "" "$(<"$room/err")"
    fi
    for program in sync-play sync-trace sync-draw sync-explore; do
        is_built "$program" || return
    done
    source tools/test_pages.sh
    limit=600 plays random
}
