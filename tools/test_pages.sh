# Each page of docs/pages is its picture, to step through; and where Chromium is at hand, a page goes as its keys, its address and a click say, every
# step of each page is in sight at three widths, its buttons fit a finger, and a page has one ground in light and in dark. The playground docs/play.html
# is of these sources; it gives what is stored of each example, and goes as its buttons, keys and links say.
test_pages() {
    local page name width same
    for page in docs/pages/*.html; do
        name=$(basename -- "$page" .html)
        attempt python3 tools/step_page.py "$(caption_of "$name")" <"docs/pictures/$name.svg"
        judge "$page" 0 "$page" /dev/null
        if grep -qF "($(sed -n 's|.*<nav><p><a href="../\([^"]*\)".*|\1|p' "$page"))" docs/TEXT.md; then
            succeed
        else
            fail "$page" "it leads to another text than docs/TEXT.md does"
        fi
    done
    attempt python3 tools/play_page.py --same
    same=$status
    if ((same)); then
        fail docs/play.html "$(<"$room/err")"
    else
        succeed
    fi
    if ! command -v chromium >/dev/null; then
        skip pages "no chromium is at hand, so no page was opened"
        return
    fi
    shows "" "" "step 1" "lock free, counter 0, nobody holds, nobody waits"
    shows "#10" "" "step 7-10006" "lock 1 reader, mark, counter 0, party 1 reads, nobody waits"
    shows "#10" "press('ArrowRight'); press('ArrowDown'); press('ArrowLeft')" "step 10007" "lock 1 reader, mark, counter 0, party 1 reads, nobody waits"
    shows "#10" "press('ArrowRight', { altKey: true }); press('Home', { ctrlKey: true }); press('End', { shiftKey: true })" "step 7-10006" "nobody waits"
    shows "#10" "press('End'); press('ArrowRight')" "step 10013" "<mark>lock write</mark>, counter 1, <mark>party 2 writes</mark>, nobody waits, <mark>party 2: success</mark>"
    shows "#10" "press('End'); press('Home')" "step 1" "nobody holds"
    shows "" "runs[0].picture.dispatchEvent(new MouseEvent('click', { clientX: 20, clientY: runs[0].rows[2].group.getBoundingClientRect().y }))" "step 3" \
        "<mark>lock 1 reader</mark>, counter 0, <mark>party 1 reads</mark>, nobody waits, <mark>party 1: success</mark>"
    shows "" "press('End')" "step 10006" "found locked (exchange 0 for 1, found 1, failed); lock locked, party 1 holds, nobody waits, <mark>party 2: interrupted</mark>" \
        docs/pages/mutex-abort.html
    shows "#3" "runs[0].told.append([slider.getAttribute('aria-valuetext'), document.querySelector('[aria-current]').getAttribute('aria-label')])" "step 3" \
        "step 3, line 3, party 1: free → 1 reader (exchange 0 for 2, found 0, done); lock 1 reader, counter 0, party 1 reads, nobody waits, party 1: success,step 3, line 3"
    page=docs/pages/rwwriter-lost-wake.html
    shows "#10008" "" "step 10008" "The Rust crate, 0.10.0: step 10008, line 7, party 1: sees 1 reader, mark" "$page"
    shows "" "press('End'); press('ArrowLeft'); press('ArrowLeft')" "step 10011" "<mark>party 2 waits</mark>" "$page"
    shows "" "press('End')" "step 10013" "Hevdzura: step 10013, line 8, party 2: mark → write" "$page"
    is_so "a page's buttons are large enough for a finger" "$page" "[...document.querySelectorAll('header > *')].every(it => Math.min(it.offsetHeight, it.offsetWidth) >= 44)" \
        --blink-settings=primaryPointerType=2,availablePointerTypes=2
    is_so "all that comes later is pale" "$page" "runs[0].later.getBoundingClientRect().bottom > [...document.querySelectorAll('.waiting')].find(it => it.textContent === 'asleep at a free lock').getBoundingClientRect().bottom"
    is_so "no button leads past the ends" "$page" "back.disabled && !on.disabled && (press('End'), !back.disabled && on.disabled)"
    is_so "a page's title, and its links where it lies alone" docs/pages/mutex-abort.html "document.title === 'A waiter gives up' && document.querySelector('nav').hidden"
    for page in docs/pages/*.html; do
        for width in 400 800 1400; do
            is_in_sight "$page" "$width"
        done
    done
    if ((!same)); then
        limit=600 plays stored
        limit=600 plays clicks
    fi
    for name in "" --force-dark-mode; do
        is_so "a page's ground is the picture's ${name:-in light}" docs/pages/rwwriter-last-look.html "getComputedStyle(document.body).backgroundColor === getComputedStyle(document.querySelector('.paper')).fill" $name
    done
}

# The playground, driven as tools/test_play_page.py says: plays WHAT
plays() {
    local said
    attempt python3 tools/test_play_page.py "$1"
    said=$(tail -n 1 -- "$room/out")
    if ((status)) || [[ ! $said =~ ^([0-9]+)\ cases,\ 0\ wrong$ ]]; then
        fail "docs/play.html, $1" "$(tail -n 5 -- "$room/out" "$room/err" | cut -c -2000)"
    else
        passed=$((passed + BASH_REMATCH[1]))
    fi
}

# Opens a page, at an address, once a script has run in it: opens PAGE SCRIPT ADDRESS [FLAG]
opens() {
    {
        cat -- "$1"
        printf '%s\n' "<script>const press = (key, more) => dispatchEvent(new KeyboardEvent('keydown', { key, cancelable: true, ...more })); $2</script>"
    } >"$room/page.html"
    attempt chromium --headless --no-sandbox --disable-gpu --user-data-dir="$room/chromium" ${4-} --dump-dom "file://$room/page.html$3"
}

# Whether this is so in a page: is_so LABEL PAGE CONDITION [FLAG]
is_so() {
    opens "$2" "document.title = $3" "" ${4-}
    if grep -qF "<title>true</title>" "$room/out"; then
        succeed
    else
        fail "$1" "it is not so in $2"
    fi
}

# A page at an address, once a script has run, shows this step and says so: shows ADDRESS SCRIPT STEP WORDS [PAGE]
shows() {
    local said
    opens "${5-docs/pages/rwwriter-last-look.html}" "$2" "$1"
    said=$(grep -F '<figcaption' "$room/out")
    if [[ $said != *"<b>$3</b>"* || $(sed 's/<\/\?\(span\|b\)>//g' <<<"$said") != *"$4"* ]]; then
        fail "a page at '$1' after '$2'" "it does not show $3 and $4: $said"
    else
        succeed
    fi
}

# Each step of a page of this width, on and back, has the words of each run in sight, where nothing covers them: is_in_sight PAGE WIDTH
is_in_sight() {
    echo "<script>onmessage = it => { document.title = it.data }</script><iframe src=page.html width=$2 height=600></iframe>" >"$room/frame.html"
    {
        cat -- "$1"
        cat <<'HTML'
<script>
let lost = 0
const isAt = (it, x, y) => it.contains(document.elementFromPoint(x, y))
const isLost = (it, { left, right, top, bottom } = it.getBoundingClientRect()) => ![[left + 2, top + 2], [right - 2, top + 2], [left + 2, bottom - 2], [right - 2, bottom - 2]].every(([x, y]) => isAt(it, x, y))
for (const way of [1, -1]) places.forEach(() => {
  go(at + way)
  lost += [...document.querySelectorAll('.now text:first-of-type')].some(it => isLost(it))
})
parent.postMessage(`lost ${lost} of ${places.length}`, '*')
</script>
HTML
    } >"$room/page.html"
    attempt chromium --headless --no-sandbox --disable-gpu --user-data-dir="$room/chromium" --window-size=1500,900 --virtual-time-budget=3000 --dump-dom "file://$room/frame.html"
    if grep -q "<title>lost 0 of" "$room/out"; then
        succeed
    else
        fail "$1, $2 wide" "$(grep -o "<title>[^<]*" "$room/out")"
    fi
}
