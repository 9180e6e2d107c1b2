"""Drives docs/play.html in Chromium.

    tools/test_play_page.py stored      each text and question of examples/, and of the tables of texts/, gives there what is stored of it
    tools/test_play_page.py random      500 texts and questions, made at random, give what the built programs write
    tools/test_play_page.py clicks      buttons, keys, links, the address, faults, want of memory and long questions, at three widths

Prints what is wrong, and then how many cases were looked at. The status is 0 where nothing is wrong.
"""

import glob
import json
import os
import random
import sys

from broken_texts import broken
from browser import Browser
from brute import question_at_random
from played import cases_in, played, wanted_of, written

PAGE = f"file://{os.path.abspath('docs/play.html')}"
# A worker as the page has it, and more that it is to do, if any, before it answers.
TESTER = """const worker_with = more => { const it = new Worker(URL.createObjectURL(new Blob([document.getElementById('worker').textContent, more]))); it.postMessage({ packed }); return it }
const asked = (worker, job, text) => new Promise(done => { worker.onmessage = ({ data }) => data.size || done(data.answer || data.played || data); worker.postMessage({ job, text }) })
const tester = worker_with(''), tried = (job, text) => asked(tester, job, text)"""
# All but some small blocks is taken before the first answer.
WANTING = "const open_it = open_module; open_module = async it => { await open_it(it); call('play', 'mutex 2\\n'.padEnd(120, '\\n')); for (let size = 2 ** 32; size >= 2 ** 20; size /= 2) while (exported.page_take(BigInt(size))); }"


def read(file):
    if not os.path.exists(file):
        return ""
    with open(file, encoding="utf-8", newline="") as it:
        return it.read()


def stored():
    """Each example: the program, its text, and what is stored of its output, its fault and its status."""
    for file in sorted(glob.glob("examples/*.txt") + glob.glob("examples/explore/*.txt")):
        stem = file[:-4]
        status, fault, text = int(read(f"{stem}.status") or 0), read(f"{stem}.err") + read(f"{stem}.advice"), read(file)
        if "/explore/" in file:
            yield "explore", text, read(f"{stem}.out"), fault, status
            picture = f"docs/pictures/{os.path.basename(stem)}.svg"
            if os.path.exists(picture) and os.path.exists(f"{stem}.told"):
                yield "draw", read(f"{stem}.told"), read(picture), "", 0
        else:
            yield "play", text, read(f"{stem}.out"), fault, status
            yield "trace", text, read(f"{stem}.trace"), fault, status
            picture = f"docs/pictures/{os.path.basename(stem)}.svg"
            if os.path.exists(picture):
                yield "draw", text, read(picture), fault, status
    for table in sorted(glob.glob("texts/sync-*/*.txt")):
        for text, printed in cases_in(read(table)):
            status, out, fault = wanted_of(printed)
            if is_text(written(text)):
                yield table.split("/")[1][5:], written(text).decode(), out.decode(), fault.decode(), status


def at_random():
    """The same of texts that are broken at random, and of questions, by what the programs write."""
    chance = random.Random(20261129)
    texts = [text for text in map(broken, range(1000)) if b"\0" not in text and is_text(text)][:400]
    for program, asked in [(it, text) for it in ("play", "trace", "draw") for text in texts] + [("explore", question_at_random(chance).encode()) for _ in range(100)]:
        status, out, error = played(f"sync-{program}", asked)
        yield program, asked.decode(), out.decode(), error.decode(), status


def is_text(found):
    try:
        found.decode()
    except UnicodeDecodeError:
        return False
    return True


class Cases:
    """How many cases were looked at, and how many were wrong."""

    def __init__(self, browser):
        self.browser, self.count, self.wrong = browser, 0, 0

    def judge(self, what, found, wanted):
        self.count += 1
        if found != wanted:
            self.wrong += 1
            print(f"{what}: {found!r} and not {wanted!r}")

    def compare(self, cases):
        """What each program writes in the page."""
        self.open()
        for program, text, out, fault, status in cases:
            found = self.browser.run(f"tried({json.dumps(program)}, {json.dumps(text)})")
            # Where a fault stands alone, as sync-play says it and most tables have it, no advice is looked at.
            said = found["error"] if fault.count("\n") != 1 else "".join(found["error"].splitlines(keepends=True)[:1])
            self.judge(f"{program} of {text!r}", (found["out"], said, found["status"]), (out, fault, status))

    def open(self):
        self.browser.open(PAGE)
        self.browser.wait("typeof play_schedule === 'function' && job === undefined")
        self.browser.run(TESTER)

    def seen(self, what, condition, seconds=20):
        """Whether this comes to hold in the page."""
        self.judge(f"{what}: {condition}", self.browser.wait(condition, seconds), True)

    def go(self, width, words, address):
        """Opens the page at an address, anew."""
        self.browser.ask("Emulation.setDeviceMetricsOverride", width=width, height=800, deviceScaleFactor=1, mobile=False)
        self.browser.open(PAGE + address)
        self.seen(f"{words}, {width} wide: it opens", "typeof play_schedule === 'function' && job === undefined && text.value")

    def press(self, key):
        for kind in ("keyDown", "keyUp"):
            self.browser.ask("Input.dispatchKeyEvent", type=kind, key=key, code=key, windowsVirtualKeyCode=13, text="\r" if kind == "keyDown" else "")

    def open_long(self, width):
        """The last step of a long schedule is in sight as soon as it opens; where fingers point, all that they meet is large enough."""
        run, touch = self.browser.run, width < 1000
        self.browser.ask("Emulation.setTouchEmulationEnabled", enabled=touch)
        self.go(width, "a long schedule", "#play/rwwriter+3" + "/1+read_lock/1+run/1+unlock/1+run" * 20)
        ends = "({ left, top, right, bottom }) => [[left + 2, top + 2], [right - 2, bottom - 2]]"
        in_sight = f"(it => ({ends})(it.getBoundingClientRect()).every(([x, y]) => document.elementFromPoint(x, y) === it))"
        self.seen("its last step", f"{in_sight}([...picture.querySelectorAll('svg > g')].at(-1).querySelector('text'))")
        self.judge("its last line, and the page's head", run("[text.scrollHeight - text.scrollTop - text.clientHeight < 2, scrollY]"), [True, 0])
        self.judge("what each word holds then", run("[held.textContent, held.getBoundingClientRect().bottom <= innerHeight]"), ["After step 100: lock free, counter 0.", True])
        self.judge("whether a button leads to the trace's last column", run("wide.hidden === trace.scrollWidth <= trace.clientWidth && (wide.click(), trace.scrollLeft + trace.clientWidth + 1 >= trace.scrollWidth)"), True)
        small = "[...document.querySelectorAll('button, select, label, nav a, textarea')].filter(it => it.offsetHeight && Math.min(it.offsetHeight, it.offsetWidth) < 44)"
        self.judge("what is small", not touch or run(f"{small}.map(it => it.textContent.slice(0, 20))"), not touch or [])
        self.judge("small letters where one writes", run("parseFloat(getComputedStyle(text).fontSize) < 16"), not touch)
        run("share.focus()")
        self.press("Enter")
        self.seen("the address is copied", "share.textContent === 'copied'")
        for object, many, call, holds in (("condvar", 5, "lock", "holds"), ("rwreader", 5, "write_lock", "writes"), ("rwreader", 3, "write_lock", "writes"))[: 3 if width < 800 else 1]:
            self.go(width, f"{many} parties at a {object}", f"#play/{object}+{many}/1+{call}/1+run/2+{call}/2+run")
            self.seen("the buttons of the last", f"[...parties.querySelectorAll('[data-party=\"{many}\"] button')].at(-1)?.getBoundingClientRect().bottom <= {700 if touch and many > 3 else 800}")
            self.judge("what is small", not touch or run(f"{small}.map(it => it.textContent.slice(0, 20))"), not touch or [])
            self.judge("who has it, and the last line", run("[held.textContent.split('; ')[1], text.scrollHeight - text.scrollTop - text.clientHeight < 2]"), [f"party 1 {holds}.", True])
        self.browser.ask("Emulation.setTouchEmulationEnabled", enabled=False)

    def click_through(self, width):
        run, mutex = self.browser.run, "#play/mutex+2"
        button = "[...parties.children[{}].querySelectorAll('button')]"
        buttons = "%s.map(it => it.textContent).join(' ') === '{}'" % button
        self.go(width, "a schedule", mutex)
        self.seen("an idle party", buttons.format(0, "lock try_lock"))
        for party, name in ((0, "try_lock"), (0, "run"), (1, "lock"), (1, "run")):
            self.seen("a button", f"job === undefined && {button.format(party)}.some(it => it.textContent === '{name}')")
            run(f"{button.format(party)}.find(it => it.textContent === '{name}').click()")
        self.seen("a holder", buttons.format(0, "unlock"))
        self.seen("a waiter", buttons.format(1, "wait abort"))
        self.judge("what it was told", run("parties.children[1].ariaLabel"), "party 2, waits, told 1")
        run(f"{button.format(1)}[1].focus()")
        self.press("Enter")
        self.seen("a key, and where the next one goes", "document.activeElement.textContent === 'run' && text.value.endsWith('2 abort\\n')")
        self.press("Enter")
        self.seen("the output", f"out.textContent === {json.dumps(read('examples/mutex-abort.out'))}")
        self.seen("the trace", f"trace.textContent === {json.dumps(read('examples/mutex-abort.trace'))}")
        self.seen("the picture", "picture.querySelectorAll('svg > g').length === 7 && !picture.classList.contains('stale')")
        self.judge("the address", run("location.hash"), "#play/mutex+2/1+try_lock/1+run/2+lock/2+run/2+abort/2+run")
        self.judge("nothing is wider than the page", run("document.documentElement.scrollWidth <= innerWidth"), True)
        self.judge("what is heard", run("heard.textContent"), "party 2: exchange 0 for 1, found 1, failed, interrupted")
        self.judge("how a party is named", run("parties.children[1].ariaLabel"), "party 2, interrupted")
        run("back.click(); back.click()")
        self.seen("back", buttons.format(1, "wait abort"))
        run("on.click()")
        self.seen("on", "text.value.endsWith('2 abort\\n')")
        run("history.go(-3)")
        self.seen("the browser's own back", "text.value.endsWith('2 abort\\n2 run\\n')")
        run("text.value = 'mutex 2\\n1 lokc\\n'; text.oninput()")
        self.seen("a fault", "fault.textContent.startsWith('line 2: bad line') && heard.textContent === fault.textContent && picture.classList.contains('stale')")
        run(f"open_text('play', {json.dumps(read('examples/mutex-abort.txt'))}, 'pushState')")
        self.seen("a picture, and its page", "picture.textContent.includes('Abort') && !through.hidden")
        run(f"open_text('play', {json.dumps(read('examples/mutex-fault.txt'))}, 'pushState')")
        self.seen("a fault has no other text's picture", "fault.textContent === 'line 6: waiting\\nthe call waits at its closure, which answers `wait` or `abort`\\n' && !picture.childElementCount && through.hidden")
        run("put(['mutex 2'])")
        self.seen("a picture without a step, from its beginning", "picture.childElementCount && !picture.scrollLeft && through.hidden")
        run("example.value = -1; example.onchange()")
        self.seen("a text of one's own begins empty", "job === undefined && text.value === '' && document.activeElement === text")
        run("open_text('play', 'mutex 2\\n1 lokc\\n', 'pushState')")
        run("document.querySelector('[value=explore]').click()")
        self.seen("the other kind begins with an example", "answers.children.length === 3 && example.selectedOptions[0].textContent === 'mutex-waiter-gives-up'")
        run("document.querySelector('[value=play]').click()")
        self.seen("and the text that was left is there", "text.value === 'mutex 2\\n1 lokc\\n' && fault.textContent.startsWith('line 2')")

    def play_own(self, width):
        run = self.browser.run
        self.go(width, "a lock of one's own", "#play/object+tas/words+state+0/lock:+take/unlock:+free,+needs+hold/take:+exchange+state+0+1;+is+0:+success,+hold+write;+else+interrupted/free:+store+state+0;+done,+ends+hold/tas+2/1+lock/1+run")
        self.seen("its output", "out.textContent === '1 success\\nstate 1 failed 0\\n'")
        self.judge("its calls", run("[...parties.querySelectorAll('[data-party=\"1\"] button')].map(it => it.textContent)"), ["unlock"])
        self.judge("it has no picture", run("pictured.hidden"), True)
        self.judge("what its word holds", run("held.textContent"), "After step 2: state 1; party 1 writes.")
        run("back.click(); back.click()")
        self.judge("its table stays", run("back.disabled"), True)
        for name, found in (("own-three-states, played", "out.textContent === '1 success\\n2 waits 2\\n1 wakes one\\n1 done\\nstate 0 failed 1\\n'"), ("own-three-states", "answers.textContent === 'never: proved, for any number of parties' && says.textContent === 'There is no such schedule: proved'"), ("own-look-then-store", "says.textContent.startsWith('Two hold it') && out.textContent.startsWith('broken 2\\n1 lock\\n')")):
            run(f"example.value = [...example.querySelectorAll('[label=\"locks of your own\"] option')].find(it => it.textContent === '{name}').value; example.onchange()")
            self.seen(f"the example {name}", found)
        run("answers.querySelector('button').click()")
        self.seen("and how two hold it is played", "held.textContent === 'After step 6: state 1; party 1 writes, party 2 writes.'")
        run("text.value = ''; text.oninput()")
        self.judge("how else a text begins", run("['parties', 'let', 'object'].filter(it => !text.placeholder.includes(it))"), [])

    def ask_through(self, width):
        run = self.browser.run
        self.go(width, "a question", "#explore/mutex+2/1+lock,+unlock/2+lock,+unlock/2+may+abort")
        self.seen("its answer", "answers.children.length === 3")
        self.judge("nothing is wider than the page", run("document.documentElement.scrollWidth <= innerWidth"), True)
        run("scrollTo(0, 9999); answers.querySelector('button').click()")
        self.seen("it is played", "out.textContent.startsWith('1 success\\n') && mode() === 'play'")
        self.judge("where it is read", run("[text, picture].every(it => it.getBoundingClientRect().top >= 0 && it.getBoundingClientRect().top < innerHeight / 2)"), True)
        lit = "out.querySelector('mark')?.textContent === '2 go 1\\n' && ['falls asleep', 'sets ready 1'].every(it => picture.textContent.includes(it))"
        for name, found in (("a lost wake", lit), ("Peterson's lock", "answers.textContent.includes('never: ') && says.textContent === 'There is no such schedule: proved'"), ("two philosophers", "out.querySelector('mark')?.textContent === '2 run\\n'")):
            run(f"[...document.querySelectorAll('nav a')].find(it => it.textContent === {json.dumps(name)}).click()")
            self.seen(name, f"mode() === 'explore' && {found}", 60)
            if found == lit:
                run("globalThis.open = it => { globalThis.opened = it }; answers.lastChild.click()")
                self.seen("its page of steps", "fetch(opened).then(it => it.text()).then(it => it.includes('falls asleep') && it.includes('id=\"slider\"'))")
                in_sight = "(({ left, top, bottom }) => it => it.left < left && it.right > left && it.bottom > top && it.top < bottom)(picture.getBoundingClientRect())"
                self.judge("what lacks its head", run(f"[...picture.querySelectorAll('text')].filter(it => ({in_sight})(it.getBoundingClientRect())).map(it => it.textContent)"), [])
                run("answers.querySelector('button').click()")
                self.seen("where all was lost, once it is played", "lost.textContent.includes('line 6, 2 go 1;') && / 6 +2 /.test(trace.querySelector('mark').textContent)")
                run("put(lines().slice(0, 5))")
                self.seen("and not before", "job === undefined && !lost.textContent && !trace.querySelector('mark')")

    def go_amiss(self):
        run = self.browser.run
        self.open()
        run(f"globalThis.wanting = worker_with({json.dumps(WANTING)})")
        many = read("examples/explore/rwwriter-limited-sleep.txt")
        found = run(f"asked(wanting, 'explore', {json.dumps(many)})")
        self.judge("want of memory", (found["status"], found["out"], found["error"]), (1, "", "no memory\n"))
        told = run(f"open_text('explore', {json.dumps(many)}, 'pushState'); done({{ job: 'explore', answer: {json.dumps(found)} }}); [fault.textContent, text.value]")
        self.judge("is told, and leaves the text", told, ["no memory\n", many])
        run("text.oninput()")
        self.seen("and it is answered anew", "job === undefined && fault.textContent === '' && answers.children.length > 1")
        long = "#explore/semaphore+7+1/" + "/".join(f"{it}+start_wait,+post+1" for it in range(1, 8))
        for none in ("", "#", "#play/%", "#nothing/mutex+2"):
            self.go(800, f"no text ({none})", none)
            self.judge("it opens with an example", run("example.selectedOptions[0].textContent"), "mutex-abort")
        self.go(800, "a schedule", "#play/mutex+2/1+lock")
        run(f"location.hash = {json.dumps(long)}")
        self.seen("how far a long question is", "!busy.hidden && /At it for [1-9]\\d* s, with [1-9]\\d* MiB/.test(busy.textContent)")
        run("busy.querySelector('button').click()")
        self.seen("it is stopped", "busy.hidden && fault.textContent === 'stopped'")
        run("location.hash = '#play/mutex+2/1+lock'")
        self.seen("and the next text is played", "out.textContent === 'word 0 failed 0\\n'")
        run("fail({ failed: 'a trap', opened: true })")
        self.judge("a trap leaves the text", run("text.value"), "mutex 2\n1 lock\n")
        run("text.oninput()")
        self.seen("and it is played anew", "job === undefined && fault.textContent === ''")
        run("text.value = `mutex 2\\n${'1 lock\\n1 run\\n1 unlock\\n1 run\\n'.repeat(2500)}`; text.oninput()")
        self.seen("ten thousand lines", "draw.textContent === 'draw 12500 rows' && !draw.hidden && trace.textContent.length < 200000", 60)
        self.judge("nor are they in the address", run("location.hash"), "")


def main():
    browser = Browser()
    cases = Cases(browser)
    try:
        if sys.argv[1:] == ["stored"]:
            cases.compare(stored())
        elif sys.argv[1:] == ["random"]:
            cases.compare(at_random())
        elif sys.argv[1:] == ["clicks"]:
            for width in (400, 800, 1400):
                cases.open_long(width)
                cases.click_through(width)
                cases.ask_through(width)
                cases.play_own(width)
            cases.go_amiss()
        else:
            sys.exit(__doc__)
    finally:
        browser.close()
    print(f"{cases.count} cases, {cases.wrong} wrong")
    return 1 if cases.wrong else 0


if __name__ == "__main__":
    sys.exit(main())
