"""The pages of `rmelab draw --html` in a browser: each step that a page shows is compared with what `replay --each` prints.

Chromium runs without a window, and is driven through the two pipes of its DevTools. docs/check runs this, with --browser."""

import json
import os
import subprocess
import tempfile
import time

from rules import TOP

# A page of this many steps has to open, and to move, within so much time. A frame is 17 ms; what drives the browser adds some.
STEPS = 10000
MOST_TO_OPEN = 5.0
MOST_TO_MOVE = 0.5
CODES = {"End": 35, "Home": 36, "ArrowLeft": 37, "ArrowRight": 39}
# Further schedules: no step, a line that is refused, numbers that no float holds, and a run that goes on from a torn append.
FURTHER = {
    "none": "rme 1 procs 1 limit 10 cap 1\n",
    "refused": "rme 1 procs 1 limit 10 cap 1\nlock 0\nstep 0 8\nconsistent 0\n",
    "large": "rme 1 procs 1 limit 10 cap 2\nlock 0\nstep 0 8\nappend 0 1 18446744073709551615\nstep 0 30\nput 0 2 9007199254740993\nstep 0\n",
    "torn": "rme 1 procs 1 limit 10 cap 2\nlock 0\nstep 0 8\nappend 0 1 77\nstep 0 7\n",
    "mended": "rme 1 procs 1 limit 10 cap 2\nlock 0\nstep 0 4\nconsistent 0\nstep 0 11\n",
}
# Of algorithms that are texts: each with a schedule of the same folder.
TEXTS = {"peterson": "crash-inside", "forgetful-peterson": "crash-in-line"}
FRAME = "new Promise(done => requestAnimationFrame(() => setTimeout(done, 0)))"


class Browser:
    """One page of chromium. Messages are JSON, each ended by a byte 0: those to the browser go to its file 3, its own come from 4."""

    def __init__(self, program):
        self.home = tempfile.TemporaryDirectory()
        taken, self.sends = os.pipe()
        self.gets, given = os.pipe()
        words = ["--headless", "--no-sandbox", "--disable-gpu", "--remote-debugging-pipe", "--window-size=1300,800"]
        command = [program, *words, f"--user-data-dir={self.home.name}", "about:blank"]
        quiet = subprocess.DEVNULL
        shell = ["bash", "-c", f'exec "$@" 3<&{taken} 4>&{given}', "bash", *command]
        self.process = subprocess.Popen(shell, pass_fds=(taken, given), stdout=quiet, stderr=quiet)
        os.close(taken)
        os.close(given)
        self.number, self.kept, self.session, self.events = 0, b"", {}, []
        target = self.ask("Target.createTarget", url="about:blank")["targetId"]
        self.session = {"sessionId": self.ask("Target.attachToTarget", targetId=target, flatten=True)["sessionId"]}
        self.ask("Page.enable")
        self.ask("Network.enable")

    def message(self):
        while b"\0" not in self.kept:
            more = os.read(self.gets, 1 << 20)
            if not more:
                raise RuntimeError("the browser has ended")
            self.kept += more
        text, self.kept = self.kept.split(b"\0", 1)
        return json.loads(text)

    def ask(self, method, **params):
        self.number += 1
        os.write(self.sends, json.dumps({"id": self.number, "method": method, "params": params, **self.session}).encode() + b"\0")
        while True:
            message = self.message()
            if message.get("id") == self.number:
                if "error" in message:
                    raise RuntimeError(f"{method}: {message['error']['message']}")
                return message["result"]
            self.events.append(message)

    def open(self, file):
        self.events.clear()
        self.ask("Page.navigate", url=f"file://{file}")
        while not any(event.get("method") == "Page.loadEventFired" for event in self.events):
            self.events.append(self.message())

    def loaded(self):
        """What the page has loaded, by the browser's record."""
        return [event["params"]["request"]["url"] for event in self.events if event.get("method") == "Network.requestWillBeSent"]

    def value(self, script):
        answer = self.ask("Runtime.evaluate", expression=script, returnByValue=True, awaitPromise=True)
        if "exceptionDetails" in answer:
            raise RuntimeError(answer["exceptionDetails"]["exception"]["description"])
        return answer["result"].get("value")

    def text(self, name):
        return self.value(f"document.getElementById('{name}').textContent")

    def slide(self, step):
        place = "document.getElementById('place')"
        self.value(f"{place}.value = {step}; {place}.dispatchEvent(new Event('input')); {FRAME}")

    def press(self, key):
        for kind in ("keyDown", "keyUp"):
            self.ask("Input.dispatchKeyEvent", type=kind, key=key, code=key, windowsVirtualKeyCode=CODES[key])
        self.value(FRAME)

    def close(self):
        self.ask("Browser.close")
        self.process.wait()
        self.home.cleanup()


def printed(program, *words):
    return subprocess.run([program, *words], capture_output=True, text=True, check=False).stdout


def steps_of(each):
    """The steps of `replay --each`, each with the lines of the report that follow it, and the lines at the end."""
    steps, end = [], []
    for line in each.splitlines():
        if line.startswith("at "):
            steps.append([line])
        elif line.split()[0] in ("words", "mail", "message", "verdict"):
            end.append(line)
        else:
            steps[-1].append(line)
    return ["\n".join(lines) for lines in steps], end


def rows_shown(browser, name):
    script = f"[...document.getElementById('{name}').rows].map(row => [...row.cells].map(cell => cell.textContent))"
    return browser.value(script)


def end_shown(browser):
    """The lines at the end of a report, as the page shows them at its last step."""
    words = [f"words {p} {' '.join(own)}" for p, _, *own in rows_shown(browser, "words")]
    mail = browser.text("mail").removeprefix("Mailbox: count ").replace(",", "")
    messages = ["message " + " ".join(row) for row in rows_shown(browser, "messages")]
    return [*words, f"mail {mail}", *messages, browser.text("end").removeprefix("The run ends here. ")]


def page_differs(browser, program, page, words):
    """Each step of one page, by the slider and by the keys."""
    steps, end = steps_of(printed(program, "replay", "--each", *words))
    with open(page, "w", encoding="utf-8") as file:
        file.write(printed(program, "draw", "--html", *words))
    browser.open(page)
    if browser.loaded() != [f"file://{page}"]:
        yield f"loads more than itself: {browser.loaded()}"
    if browser.value("document.getElementById('place').max") != str(len(steps)):
        yield f"has not {len(steps)} steps"
    for move in ("slider", "key"):
        browser.press("Home")
        for at, step in enumerate(steps, 1):
            browser.slide(at) if move == "slider" else browser.press("ArrowRight")
            if browser.text("event") != step:
                yield f"shows another step {at} by the {move}: {browser.text('event')!r}, not {step!r}"
    if words[0] == "--algorithm":
        end, shown = end[-1:], [browser.text("end").removeprefix("The run ends here. ")]
    else:
        shown = end_shown(browser)
    if end and shown != end:
        yield f"ends otherwise: {shown}, not {end}"
    browser.press("ArrowLeft")
    if len(steps) > 1 and browser.text("event") != steps[-2]:
        yield "does not go back"


def kinds_that_differ(browser, program):
    """What a page says of each kind of step, against `explain`."""
    for name in printed(program, "explain").splitlines():
        kind, words = name.removeprefix("step "), printed(program, "explain", *name.split()).splitlines()
        if name.startswith("step ") and f"step {kind}: " + (browser.value(f"KINDS['{kind}']") or "") != words[0]:
            yield f"{name}: is explained in another way"


def long_page_is_slow(browser, program, folder):
    """A page of 10,000 steps: one process enters and leaves again and again."""
    turns = STEPS // 14
    with open(f"{folder}/long.rme", "w", encoding="utf-8") as file:
        file.write("rme 1 procs 1 limit 1000000 cap 1\n" + "lock 0\nstep 0 100\nunlock 0\nstep 0 100\n" * turns)
    page = f"{folder}/long.html"
    with open(page, "w", encoding="utf-8") as file:
        file.write(printed(program, "draw", "--html", f"{folder}/long.rme"))
    before = time.monotonic()
    browser.open(page)
    last = int(browser.value("document.getElementById('place').max"))
    opened = time.monotonic() - before
    moves = [lambda: browser.press("ArrowRight")] * 5 + [lambda step=step: browser.slide(step) for step in (last, last // 2, 1)]
    taken = []
    for move in moves:
        before = time.monotonic()
        move()
        taken.append(time.monotonic() - before)
    if opened > MOST_TO_OPEN or sorted(taken)[len(taken) // 2] > MOST_TO_MOVE:
        yield f"a page of {last} steps opens in {opened:.1f} s, and moves in {max(taken):.2f} s"
    nodes = browser.value("document.getElementsByTagName('*').length")
    if nodes > 5000:
        yield f"a page of {last} steps has {nodes} elements"


def further_pages_that_differ(browser, program, folder):
    for name, text in FURTHER.items():
        with open(f"{folder}/{name}.rme", "w", encoding="utf-8") as file:
            file.write(text)
        image = [f"--image={folder}/torn.json"] if name == "mended" else []
        if image:
            printed(program, "replay", f"--save={folder}/torn.json", f"{folder}/torn.rme")
        found = page_differs(browser, program, f"{folder}/page.html", [*image, f"{folder}/{name}.rme"])
        yield from (f"the schedule {name} of docs/browser.py: its page {what}" for what in found)


def pages_that_differ(program, chromium):
    program = os.path.realpath(program)
    browser = Browser(chromium)
    with tempfile.TemporaryDirectory() as folder:
        yield from further_pages_that_differ(browser, program, folder)
        for name in sorted(os.listdir(f"{TOP}/examples")):
            if name.endswith(".rme"):
                for variant in ([], ["--variant=no-look"])[: 2 if name == "two-in-the-doorway.rme" else 1]:
                    words = [*variant, f"{TOP}/examples/{name}"]
                    found = page_differs(browser, program, f"{folder}/page.html", words)
                    yield from (f"examples/{name}: its page {what}" for what in found)
        for text, schedule in TEXTS.items():
            algorithms = f"{TOP}/examples/algorithms"
            words = ["--algorithm", f"{algorithms}/{text}.lock", f"{algorithms}/{schedule}.rme"]
            found = page_differs(browser, program, f"{folder}/page.html", words)
            yield from (f"examples/algorithms/{text}.lock on {schedule}.rme: its page {what}" for what in found)
        yield from kinds_that_differ(browser, program)
        yield from long_page_is_slow(browser, program, folder)
    browser.close()
