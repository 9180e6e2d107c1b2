# Each text of examples/ is played by each of `players`. NAME.txt has beside it what is written to standard output (NAME.out, or the
# player's own ending), NAME.err for standard error where it is not empty, which all but sync-play go on as in NAME.advice, and NAME.status where
# the status is not 0. Each is drawn too, and so is each answer of `sync-explore` with its moves: a picture that a page shows is compared with its
# file, and every other is a picture.
test_examples() {
    local line player ending endings=() text stem
    for line in "${players[@]}"; do
        read -r player ending <<<"$line"
        endings+=("$ending")
        if ! is_built "$player"; then
            continue
        fi
        for text in examples/*.txt; do
            play_example "$player" "$ending" "${text%.txt}"
        done
    done
    if is_built "$drawer"; then
        for text in examples/*.txt examples/explore/*.told; do
            draw_example "$text"
        done
        for text in docs/pages/*.html; do
            stem=$(basename -- "$text" .html)
            if [[ ! -e examples/$stem.txt ]]; then
                continue
            fi
            attempt "./$drawer" --page <"examples/$stem.txt"
            python3 tools/step_page.py <"docs/pictures/$stem.svg" >"$room/page"
            judge "./$drawer --page < examples/$stem.txt" 0 "$room/page" /dev/null
        done
        attempt "./$drawer" --beside examples/mutex-success-after-abort.txt <examples/mutex-abort.txt
        python3 tools/beside.py docs/pictures/mutex-abort.svg "standard input" docs/pictures/mutex-success-after-abort.svg \
            examples/mutex-success-after-abort.txt >"$room/page"
        judge "./$drawer --beside" 0 "$room/page" /dev/null
        for text in docs/pictures/*.svg; do
            stem=$(basename -- "$text" .svg)
            # of another crate's run, which conform/draw draws
            if [[ $stem == rwwriter-lost-wake ]]; then
                continue
            fi
            if [[ ! -e examples/explore/$stem.told && (! -e examples/$stem.txt || -e examples/$stem.err) ]]; then
                fail "$text" "there is no examples/$stem.txt without a fault, and no examples/explore/$stem.told"
            fi
        done
    fi
    for text in examples/*.*; do
        stem=${text%.*}
        if [[ " txt err advice status ${endings[*]} " != *" ${text##*.} "* ]]; then
            fail "$text" "no program writes a file of this ending"
        elif [[ ! -e $stem.txt ]]; then
            fail "$text" "there is no $stem.txt"
        fi
    done
}

play_example() {
    local label="./$1 < $3.txt" wanted_err=/dev/null wanted_status=0
    if [[ ! -f $3.$2 ]]; then
        fail "$label" "there is no $3.$2"
        return
    fi
    if [[ -f $3.err ]]; then
        wanted_err=$3.err
    fi
    if [[ $1 != sync-play && -f $3.advice ]]; then
        wanted_err=$room/wanted_err
        cat -- "$3.err" "$3.advice" >"$wanted_err"
    fi
    if [[ -f $3.status ]]; then
        wanted_status=$(<"$3.status")
    fi
    attempt "./$1" <"$3.txt"
    judge "$label" "$wanted_status" "$3.$2" "$wanted_err"
}

draw_example() {
    local label="./$drawer < $1" stem=${1%.*} picture why
    picture=docs/pictures/$(basename -- "$stem").svg
    attempt "./$drawer" <"$1"
    if [[ $1 == *.txt && -f $stem.err ]]; then
        cat -- "$stem.err" "$stem.advice" >"$room/wanted_err"
        judge "$label" "$(<"$stem.status")" /dev/null "$room/wanted_err"
    elif ! why=$(python3 tools/picture.py "$room/out" 2>&1); then
        fail "$label" "$why"
    elif [[ -f $picture ]]; then
        judge "$label" 0 "$picture" /dev/null
    else
        cp -- "$room/out" "$room/drawn"
        judge "$label" 0 "$room/drawn" /dev/null
    fi
}
