#!/usr/bin/env python3
"""Tests of the page in Chromium. Usage: tests/browser.py PROGRAM BROWSER [FOLDER]
PROGRAM is rhai-window; pictures of the page go to FOLDER. Fails at the first test that does."""
import base64
import json
import os
import socket
import subprocess
import sys
from xml.etree import ElementTree

sys.path.insert(0, os.path.dirname(os.path.abspath(__file__)))
from devtools import Browser

PROGRAM, CHROMIUM = sys.argv[1], sys.argv[2]
FOLDER = sys.argv[3] if len(sys.argv) > 3 else None
IMAGE = "<img src=x onerror=alert(1)>"
LARGE = "let all = []; for i in 0..100 { let row = []; for j in 0..99 { row.push(j); } all.push(row); }\n" + \
        "\n".join(f"let v{n} = {n};" for n in range(14))

ROUNDS = 8
# (makes a step, and waits for the frame that has it)
STEP = """(async () => {
  const began = performance.now();
  const done = new Promise((done) => new MutationObserver(done).observe(document.body, { attributeFilter: ["data-took"] }));
  document.getElementById("into").click();
  await done;
  const { port1, port2 } = new MessageChannel();
  await new Promise((done) => { port1.onmessage = done; requestAnimationFrame(() => port2.postMessage(0)); });
  return performance.now() - began;
})()"""


class Served:
    """The program, and what it prints."""

    def __init__(self, *words):
        self.process = subprocess.Popen([PROGRAM, *words], stdout=subprocess.PIPE, text=True)
        self.address = self.process.stdout.readline().strip()
        self.host, self.token = self.address.removeprefix("http://").split("/#")

    def raw(self, first, headers, body="", seconds=120):
        """The status and the whole answer of a request that is written by hand."""
        with socket.create_connection(("127.0.0.1", int(self.host.split(":")[1])), timeout=seconds) as made:
            lines = [first, *headers, f"Content-Length: {len(body)}", "Connection: close", "", body]
            made.sendall("\r\n".join(lines).encode())
            answer = b""
            while piece := made.recv(65536):
                answer += piece
        return int(answer.split()[1]), answer.decode()

    def call(self, body='{"do":"open"}', **changes):
        """The status of a call of the page, with some headers changed; `None` leaves one out."""
        own = {"Host": self.host, "Origin": f"http://{self.host}", "Content-Type": "application/json", "X-Token": self.token}
        own.update({name.replace("_", "-"): value for name, value in changes.items()})
        return self.raw("POST /call HTTP/1.1", [f"{name}: {value}" for name, value in own.items() if value is not None], body)[0]

    def close(self):
        self.process.terminate()
        self.process.wait(timeout=30)


class Page:
    """The page, as a user has it."""

    def __init__(self, served, browser):
        self.served, self.browser, self.value = served, browser, browser.value
        self.load()

    def load(self):
        self.browser.ask("Page.navigate", url="about:blank")
        self.browser.ask("Page.navigate", url=self.served.address)
        self.browser.wait("document.body?.dataset.ready === 'true'")

    def idle(self):
        self.browser.wait("document.body.dataset.busy !== 'true'")

    def click(self, *names):
        for name in names:
            self.value(f"document.getElementById('{name}').click()")
            self.idle()

    def example(self, number):
        self.value(f"(() => {{ const all = document.getElementById('examples'); all.value = {number}; all.dispatchEvent(new Event('change')); }})()")

    def write(self, script, field="script"):
        self.idle()
        self.value("document.querySelectorAll('#gutter [aria-pressed=true]').forEach((one) => one.click())")
        self.value(f"(() => {{ const text = document.getElementById('{field}'); text.value = {json.dumps(script)}; "
                   "text.dispatchEvent(new Event('input')); })()")

    def line(self):
        """The line that is marked as the one that runs."""
        return self.value("[...document.querySelectorAll('#shown .line')].findIndex((line) => line.classList.contains('now')) + 1")

    def text(self, name):
        return self.value(f"document.getElementById('{name}').textContent")

    def count(self, selector):
        return self.value(f"document.querySelectorAll({json.dumps(selector)}).length")

    def into_line(self, line):
        for _ in range(30):
            if self.line() == line:
                return
            self.click("into")
        raise AssertionError(f"line {line} isn't reached")

    def picture(self, name, *size):
        if FOLDER:
            self.browser.size(*size)
            self.value("new Promise((done) => requestAnimationFrame(() => requestAnimationFrame(done)))")
            self.browser.picture(os.path.join(FOLDER, name))
            self.browser.size(1280, 800)


def equal(found, wanted):
    if found != wanted:
        raise AssertionError(f"{found!r} instead of {wanted!r}")


def the_page_alone_may_call(page):
    served = page.served
    equal(served.call(), 200)
    equal(served.call(Origin=None), 200)
    for change in ({"Host": "localhost:" + served.host.split(":")[1]}, {"Host": "example.org"}, {"Host": "127.0.0.1"}, {"Origin": "http://example.org"},
                   {"Origin": "null"}, {"X_Token": served.token[:-1] + "x"}, {"X_Token": ""}, {"X_Token": None}, {"Sec_Fetch_Site": "cross-site"}):
        equal((change, served.call(**change)), (change, 403))
    equal(served.call(Content_Type="text/plain"), 415)
    equal(served.call(body="{"), 400)
    equal(served.call(body='{"do":"look","session":"none"}'), 410)
    equal(served.call(body=" " * 300_000), 413)
    own = [f"Host: {served.host}"]
    for first, status in (("GET / HTTP/1.1", 200), ("GET /call HTTP/1.1", 404), ("GET /../Cargo.toml HTTP/1.1", 404), ("GET /etc/passwd HTTP/1.1", 404),
                          ("PUT /call HTTP/1.1", 405), ("OPTIONS /call HTTP/1.1", 405), ("POST / HTTP/1.1", 404)):
        equal((first, served.raw(first, own)[0]), (first, status))
    equal(served.raw("GET / HTTP/1.1", ["Host: example.org"])[0], 403)
    equal(served.raw("GET / HTTP/1.1", own + ["Host: example.org"])[0], 403)
    head = served.raw("GET / HTTP/1.1", own)[1].split("\r\n\r\n")[0].lower()
    for wanted in ("default-src 'none'", "frame-ancestors 'none'", "nosniff", "no-referrer", "no-store", "x-frame-options: deny"):
        equal((wanted, wanted in head), (wanted, True))
    equal("access-control" in head, False)
    equal(page.value("location.href"), f"http://{served.host}/")


def no_connection_waits_for_another(page):
    served, idle = page.served, []
    port = int(served.host.split(":")[1])
    for _ in range(12):
        idle.append(socket.create_connection(("127.0.0.1", port)))
        equal(served.raw("GET / HTTP/1.1", [f"Host: {served.host}"], seconds=20)[0], 200)
    for one in idle:
        one.close()


def the_page_is_small(page):
    served, size = page.served, 0
    for path in ("", "app.js", "commands.js", "editor.js", "examples.js", "patch.js", "places.js", "texts.js", "values.js", "world.js",
                 "style.css"):
        size += len(served.raw(f"GET /{path} HTTP/1.1", [f"Host: {served.host}"])[1].split("\r\n\r\n", 1)[1].encode())
    asked = page.value("performance.getEntriesByType('resource').map((one) => new URL(one.name).host)")
    equal(set(asked), {served.host})
    equal(size <= 100_000, True)
    print(f"  the page has {size} bytes")


def a_shared_counter_is_drawn(page):
    page.example(0)
    equal(page.text("step"), "not started")
    page.into_line(6)
    equal(page.count("svg.world .cell"), 1)
    equal(page.value("[...document.querySelectorAll('svg.world .arrow')].map((one) => one.dataset.cell)"), ["0", "0", "0"])
    equal(page.count("svg.world .loop"), 0)
    equal(page.value("document.querySelector('svg.world .cell').textContent.includes('1')"), True)
    equal(page.value("[...document.querySelectorAll('svg.world .name')].map((one) => one.textContent)"), ["count", "up", "down"])
    equal(page.value("[...document.querySelectorAll('#variables .changed th')].map((one) => one.textContent)"), ["down", "up", "count"])
    page.picture("counter.png", 1280, 610)


def breakpoints_stop(page):
    page.example(0)
    page.value("document.querySelector('#gutter [data-line=\"8\"]').click()")
    page.click("run")
    equal((page.line(), page.text("printed")), (8, ""))
    page.click("run")
    equal((page.line(), page.text("printed")), (0, "1"))
    equal(page.text("step").endswith(": done"), True)


def steps_go_back(page):
    page.example(0)
    page.click("run")
    last = int(page.text("step").split()[1])
    # (the steps are before lines 1, 2, 3, 5, 2, 6, 2, 7, 3 and 8, and the end)
    equal((last, page.text("printed")), (11, "1"))
    page.click("back")
    equal((page.line(), page.text("printed"), page.text("step")), (8, "", "step 10 of 11"))
    page.click("back", "back")
    equal((page.line(), page.text("step")), (7, "step 8 of 11"))
    page.value("(() => { const all = document.getElementById('steps'); all.value = 2; all.dispatchEvent(new Event('input')); })()")
    page.browser.wait(f"document.getElementById('step').textContent === 'step 2 of {last}'")
    equal((page.line(), page.count("svg.world .cell")), (2, 0))


def errors_are_underlined(page):
    page.example(7)
    page.click("run")
    place = page.value("(() => { const wrong = document.querySelector('#shown .wrong'), line = wrong.closest('.line'); let before = 0; "
                       "for (let one = wrong.previousSibling; one; one = one.previousSibling) before += one.textContent.length; "
                       "return [[...line.parentNode.children].indexOf(line) + 1, before + 1]; })()")
    equal(place, [2, 10])
    equal("index 2 out of range" in page.text("error"), True)
    equal(page.text("printed"), "no such luck\n20")
    page.picture("error-dark.png", 1280, 800, True)
    page.write("let x = 1;\nlet = 2;")
    page.click("run")
    equal(page.value("[...document.querySelectorAll('#shown .line')].findIndex((line) => line.querySelector('.wrong')) + 1"), 2)


def loops_are_loops(page):
    page.example(1)
    page.click("run")
    equal((page.count("svg.world .cell"), page.count("svg.world .arrow"), page.count("svg.world .loop")), (1, 3, 1))
    page.picture("loop-400.png", 400, 980)


def keys_are_enough(page):
    page.load()
    key = page.browser.key
    page.value("document.getElementById('script').select()")
    page.browser.ask("Input.insertText", text="let a = [[1, 2, 3, 4, 5, 6, 7, 8, 9, 10, 11, 12, 13, 14]];\nlet f = |x| { x + 1 };\nf.call(1);\na")
    # (the caret is in line 4)
    key("F9", number=120)
    equal(page.value("document.querySelector('#gutter [aria-pressed=true]').textContent"), "4")
    key("Enter", number=13, modifiers=2)
    page.browser.wait("document.querySelector('#gutter .now')?.textContent === '4'")
    page.idle()
    for name, number, line in (("F2", 113, 2), ("F2", 113, 3), ("F10", 121, 4), ("F2", 113, 2), ("F4", 115, 4)):
        key(name, number=number)
        page.browser.wait(f"document.querySelector('#gutter .now')?.textContent === '{line}' && document.body.dataset.busy === 'false'")
    boxes = page.count("svg.world text")
    for _ in range(40):
        key("Tab", number=9)
        if page.value("document.activeElement.classList.contains('fold')"):
            break
    key("Enter", number=13, text="\r")
    page.idle()
    equal(page.count("svg.world text") > boxes, True)
    equal(page.value("document.activeElement.classList.contains('fold')"), True)


def endless_scripts_are_stopped(page):
    page.write("let n = 0;\nloop {\n  n += 1;\n}")
    page.value("document.getElementById('run').click()")
    page.browser.wait("Number(document.getElementById('step').textContent.split(' ')[1]) > 5")
    page.browser.key("Escape", number=27)
    page.idle()
    equal((page.line() in (2, 3), page.count("svg.world .name")), (True, 1))
    page.write("loop {}")
    page.click("run")
    equal("too many operations" in page.text("error"), True)


def texts_stay_texts(page):
    page.write(f'let t = "{IMAGE}";\nlet m = [t, t];\nprint(t);\nthrow t;')
    page.click("run")
    equal(page.text("printed"), IMAGE)
    equal(IMAGE in page.text("error"), True)
    equal(page.count("img"), 0)
    equal(page.value(f"[...document.querySelectorAll('svg.world text')].some((one) => one.textContent.includes({json.dumps(IMAGE)}))"), True)
    saved = page.value("import('/world.js').then((world) => world.file(document.querySelector('svg.world')))")
    equal(("<img" in saved, "&lt;img src=x" in saved, "<style" in saved), (False, True, True))
    # (it fails if the file isn't whole)
    ElementTree.fromstring(saved.encode())


def steps_are_fast(page):
    # (the machine may be busy with other work: the best of some rounds counts)
    middles, bytes_of_steps = [], []
    for _ in range(ROUNDS):
        page.write(LARGE)
        page.value("document.querySelector('#gutter [data-line=\"2\"]').click()")
        page.click("run")
        equal((page.line(), int(page.text("count").split()[0]) >= 10_000), (2, True))
        page.value("performance.clearResourceTimings()")
        times = sorted(page.value(STEP) for _ in range(11))
        bytes_of_steps += page.value("performance.getEntriesByType('resource').map((one) => one.encodedBodySize)")
        middles.append(times[5])
        if times[5] <= 50:
            break
    print(f"  a step over {page.text('count')}: drawn after {middles[-1]:.1f} ms in the middle of 11, with {max(bytes_of_steps)} bytes"
          f" (middles of all rounds: {', '.join(f'{one:.1f}' for one in middles)})")
    equal((min(middles) <= 50, len(bytes_of_steps), 0 < max(bytes_of_steps) <= 8_000), (True, 11 * len(middles), True))


def unfolded_values_are_asked_for(page):
    page.write("let deep = #{rows: []};\nfor n in 0..100 { deep.rows.push([n]); }\nlet f = |x| { deep.rows[50] += x; };\nf.call(1);")
    page.click("run")
    unfold = "document.querySelector('svg.world .fold').dispatchEvent(new MouseEvent('click', {bubbles: true}))"
    shown = page.count("svg.world text")
    equal(page.value("document.querySelector('svg.world .fold').textContent"), ".. 94 more")
    page.value(unfold)
    page.idle()
    equal((page.count("svg.world text") - shown, page.value("document.querySelector('svg.world .fold').textContent")), (188, "fold"))
    equal(page.value("[...document.querySelectorAll('svg.world text')].some((one) => one.textContent === '[50, 1]')"), True)
    page.value(unfold)
    equal(page.count("svg.world text"), shown)


def an_error_has_the_values_before_it(page):
    page.write("fn part(list, at) {\n  let sum = list[0];\n  sum += list[at]; sum\n}\nlet list = [7, 8];\nlet see = || list;\nprint(1);\npart(list, 2);")
    page.click("run")
    equal(("out of range" in page.text("error"), page.text("printed"), page.text("step").endswith(": error")), (True, "1", True))
    equal(page.value("[...document.querySelectorAll('#calls button')].map((one) => one.textContent)"), ["part, line 3", "the script, line 8"])
    equal(page.value("[...document.querySelectorAll('#variables tr')].map((one) => one.textContent)"), ["sum7", "at2", "list[7, 8]"])
    names = page.value("[...document.querySelectorAll('svg.world .name')].map((one) => one.textContent)")
    equal((names, page.count("svg.world .cell")), (["list", "at", "sum", "list", "see"], 1))
    last = page.text("step")
    page.click("back")
    equal((page.line(), page.text("error"), page.text("printed")), (3, "", "1"))
    page.click("into")
    equal((page.text("step"), "out of range" in page.text("error")), (last, True))
    page.write("let n = 0;\nloop { n += 1; }")
    page.click("run")
    equal(("too many operations" in page.text("error"), page.count("svg.world .name")), (True, 1))


def commands_have_answers(page):
    page.example(8)
    page.value("document.getElementById('run-lines').click()")
    page.browser.wait("document.getElementById('answers').children.length > 10")
    answers = page.value("[...document.getElementById('answers').children].map((one) => one.textContent)")
    equal((answers[7], answers[11], answers[12]), ("refused ErrorDataRace", "ok", "12 (shared)"))
    equal(page.value("[...document.querySelectorAll('svg.world .title')].map((one) => one.textContent).slice(0, 2)"), ["entries", "hand"])
    page.picture("commands.png", 1280, 800)
    page.value("document.getElementById('previous-line').click()")
    page.browser.wait("document.getElementById('line-count').textContent.startsWith('after line 13')")


def a_marked_cell_is_drawn_once(page):
    page.example(8)
    page.value("document.querySelector('#line-gutter [data-line=\"8\"]').click()")
    page.browser.wait("document.getElementById('line-count').textContent.startsWith('after line 8')")
    titles = page.value("[...document.querySelectorAll('svg.world .title')].map((one) => one.textContent)")
    equal(titles, ["entries", "marks", "hand", "cell 0, marked"])
    # (the entry, the mark and the second value of the hand)
    equal((page.count("svg.world .cell.marked"), page.count("svg.world .arrow")), (1, 3))
    page.picture("marked.png", 1280, 800)


def nothing_runs_unasked(page):
    text = 'print("é€");\nlet x = 1;'
    fragment = "#" + base64.urlsafe_b64encode(text.encode()).decode().rstrip("=")
    served = Served(fragment)
    try:
        other = Page(served, page.browser)
        equal(other.value("document.getElementById('script').value"), text)
        equal((other.text("step"), other.text("printed"), other.count("svg.world")), ("not started", "", 0))
        other.click("run")
        equal(other.text("printed"), "é€")
    finally:
        served.close()
    wrong = subprocess.run([PROGRAM, "#=="], capture_output=True, text=True)
    equal((wrong.returncode, wrong.stderr), (2, "error: the fragment is no script\n"))


def nothing_was_complained_about(page):
    told = [event["params"] for event in page.browser.events if event["method"] in ("Runtime.exceptionThrown", "Log.entryAdded")]
    wrong = [one for one in told if "favicon" not in json.dumps(one)]
    equal(wrong, [])


TESTS = [the_page_alone_may_call, no_connection_waits_for_another, the_page_is_small, a_shared_counter_is_drawn, breakpoints_stop,
         steps_go_back, errors_are_underlined, loops_are_loops, keys_are_enough, endless_scripts_are_stopped, texts_stay_texts,
         steps_are_fast, unfolded_values_are_asked_for, an_error_has_the_values_before_it, commands_have_answers,
         a_marked_cell_is_drawn_once, nothing_runs_unasked, nothing_was_complained_about]


def main():
    served = Served()
    try:
        browser = Browser(CHROMIUM, 1280, 800)
        try:
            page = Page(served, browser)
            for test in TESTS:
                print(test.__name__, flush=True)
                test(page)
        finally:
            browser.close()
    finally:
        served.close()


main()
