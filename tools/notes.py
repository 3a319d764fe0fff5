#!/usr/bin/env python3
"""Tries examples/notes in a real browser, with servers of PROGRAM that come and go.

usage: tools/notes.py [--port P] PROGRAM

The page is of another origin than the server, which wants a token. Seen are: a first meeting; a reload with no server and nobody who serves
the page; notes that are written meanwhile; two tabs that write one key at once; two browsers that write one note apart while the server is
away, show both versions, and resolve them; notes that come in while one types; a server that is killed in the midst of a sync; and how many
requests sessions take. It needs Debian's chromium, chromium-driver and python3-selenium (/usr/bin/python3 has it, where python3 is another).
"""
import argparse
import http.client
import json
import pathlib
import shutil
import subprocess
import sys
import tempfile
import time
import urllib.error
import urllib.request

from selenium import webdriver

TOP = pathlib.Path(__file__).resolve().parent.parent
TOKEN = "sixteen-letters!"
# What a browser says of a server that is not there.
KNOWN = ("ERR_CONNECTION", "status of 502", "favicon", "ERR_EMPTY_RESPONSE", "Failed to fetch")
NOTES = "return [...document.querySelectorAll('#notes li')].map((li) => [...li.querySelectorAll('textarea')].map((area) => area.value))"


def is_so(what, holds, seen=""):
    print(f"{'ok ' if holds else 'NOT'} {what}" + (f": {seen}" if seen != "" else ""), flush=True)
    if not holds:
        sys.exit(1)


def wait_for(what, act, seconds=20):
    end = time.time() + seconds
    while True:
        try:
            seen = act()
        except (OSError, ValueError, http.client.HTTPException):
            seen = None
        if seen or time.time() > end:
            is_so(what, bool(seen), seen if seen is not True else "")
            return seen
        time.sleep(.05)


class Parts:
    """The server, and whoever serves the page: each may be ended and started again."""

    def __init__(self, program, folder, port):
        self.program, self.folder, self.port = program, folder, port
        self.page, self.url, self.empty = (f"http://127.0.0.1:{port + i}" for i in (0, 1, 3))
        self.page += "/"
        self.site = folder / "site"
        shutil.copytree(TOP / "examples" / "notes", self.site)
        for file in ("mvd.js", "test/counted.mjs"):
            shutil.copy(TOP / "clients" / "js" / file, self.site)
        (folder / "token").write_text(TOKEN + "\n")
        self.running = {}

    def start(self, name):
        def serve(file, port):
            return [self.program, "serve", "--db", str(self.folder / file), "--site", "1", "--port", str(port + 1), "--http", str(port), "--token-file",
                    str(self.folder / "token"), "--origin", self.page.rstrip("/")]

        words = {
            "web": [sys.executable, "-m", "http.server", str(self.port), "--bind", "127.0.0.1", "--directory", str(self.site)],
            "server": serve("notes.db", self.port + 1),
            "empty": serve("empty.db", self.port + 3),
        }[name]
        self.running[name] = subprocess.Popen(words, stdout=subprocess.DEVNULL, stderr=subprocess.DEVNULL)
        asks = {"web": lambda: urllib.request.urlopen(self.page, timeout=1), "server": lambda: self.ask("/root"), "empty": lambda: self.tell("/root", self.empty)}
        wait_for(f"{name} is there", lambda: bool(asks[name]()))

    def end(self, *names):
        for name in names:
            if name in self.running:
                self.running[name].kill()
                self.running.pop(name).wait()

    def ask(self, path):
        return json.loads(self.tell(path, self.url))

    def tell(self, path, url):
        request = urllib.request.Request(url + path, headers={"Authorization": f"Bearer {TOKEN}"})
        with urllib.request.urlopen(request, timeout=5) as response:
            return response.read().decode()

    def texts(self):
        """The texts of each note at the server."""
        keys = [one["key"] for one in self.ask("/keys?prefix=note/&live=1")["keys"]]
        return [[one["document"]["text"] for one in self.ask(f"/keys/{key.replace('/', '%2F')}")["siblings"]] for key in keys]


class Browser:
    def __init__(self, parts):
        options = webdriver.ChromeOptions()
        for word in ("--headless=new", "--no-sandbox", "--disable-gpu", "--disable-dev-shm-usage"):
            options.add_argument(word)
        options.set_capability("goog:loggingPrefs", {"browser": "ALL"})
        self.driver, self.parts = webdriver.Chrome(options=options), parts
        self.driver.set_script_timeout(240)

    def run(self, script, *given):
        return self.driver.execute_script(script, *given)

    def later(self, script):
        """What a script gives that waits; `site` is the page's store, opened once more."""
        whole = "const done = arguments[0]; (async () => { const { Site } = await import('./mvd.js'); const site = await Site.open('notes'); " + script
        return self.driver.execute_async_script(whole + " })().then(done, (fault) => done('FAULT ' + fault))")

    def open(self):
        self.driver.get(self.parts.page)
        wait_for("the page is open", lambda: self.run("return document.querySelector('#state').textContent !== 'opening'"))

    def meet(self):
        self.open()
        self.run("""document.querySelector('#server').value = arguments[0]; document.querySelector('#token').value = arguments[1];
            document.querySelector('#door button').click()""", self.parts.url, TOKEN)
        wait_for("it meets the server", lambda: "met at" in self.state())

    def state(self):
        return self.run("return document.querySelector('#state').textContent")

    def notes(self):
        return self.run(NOTES)

    def add(self, text):
        self.run("document.querySelector('#text').value = arguments[0]; document.querySelector('#new button').click()", text)
        wait_for(f"adds {text}", lambda: [text] in self.notes())

    def edit(self, old, new):
        self.run("""const area = [...document.querySelectorAll('#notes textarea')].find((one) => one.value === arguments[0]);
            area.value = arguments[1]; area.onchange()""", old, new)
        wait_for(f"edits {old} to {new}", lambda: [new] in self.notes())

    def press(self, selector):
        """A click of the mouse, after which what was clicked has the focus."""
        self.driver.find_element("css selector", selector).click()


def alone(parts, one):
    one.meet()
    one.add("first")
    wait_for("the server has it", lambda: ["first"] in parts.texts())
    wait_for("the page is kept", lambda: one.later("return (await (await caches.open('notes')).keys()).length >= 3"))
    parts.end("server", "web")
    one.open()
    is_so("a reload with nobody there shows the note", one.notes() == [["first"]], one.notes())
    one.add("second, with no network")
    one.edit("first", "first, edited with no network")
    one.open()
    is_so("and another what was written", sorted(map(tuple, one.notes())) == [("first, edited with no network",), ("second, with no network",)], one.notes())
    parts.start("server")
    wait_for("the server gets it when it is back", lambda: sorted(parts.texts()) == [["first, edited with no network"], ["second, with no network"]], 60)


def stores(one):
    """The store of a browser does what that of memory does."""
    said = one.later("""const { Memory } = await import('./mvd.js');
        const a = await Site.open('apart', { site: 9 }), b = await Site.open('', { site: 9, store: new Memory() });
        const random = (most) => Math.floor(Math.random() * most), rows = (all) => all.map(([key, { digest, seq, siblings }]) => [key, digest, seq, siblings]),
            told = async (one) => JSON.stringify([await one.root(), await one.keys({ prefix: 'k1' }),
            await one.conflicts(), rows(await one.since(40)), rows(await one.rows('k', 'k12', 'k3')), await one.all('k2'), await one.clock()]);
        for (let i = 0; i < 150; i++) {
          const key = `k${random(40)}`, blind = random(2), gone = random(5) === 0;
          for (const one of [a, b]) await (gone ? one.delete(key, await one.get(key)) : one.put(key, { i }, blind ? undefined : await one.get(key)));
          if (i % 30 === 29 && await told(a) !== await told(b)) return `differ at ${i}`;
        }
        const again = await Site.open('apart');
        return again.number === 9 && await told(again) === await told(b) ? 'equal' : 'differ when opened again';""")
    is_so("IndexedDB does what a store in memory does", said == "equal", said)


def two_tabs(parts, one):
    parts.start("web")
    first = one.driver.current_window_handle
    one.driver.switch_to.new_window("tab")
    one.open()
    second = one.driver.current_window_handle
    write = """window.dots = []; (async () => { const { Site } = await import('./mvd.js'); const site = await Site.open('notes');
        for (let i = 0; i < 100; i++) window.dots.push((await site.put('note/shared', { text: `${arguments[0]} ${i}` })).dot); window.done = true; })()"""
    write = write.replace("arguments[0]", "name")
    for handle, name in ((first, "left"), (second, "right")):
        one.driver.switch_to.window(handle)
        one.run(f"const name = '{name}'; " + write)
    dots = []
    for handle in (first, second):
        one.driver.switch_to.window(handle)
        wait_for("a tab has written", lambda: one.run("return window.done === true"), 60)
        dots += one.run("return window.dots")
    is_so("two tabs that write at once mint different dots", len(set(dots)) == len(dots) == 200, len(set(dots)))
    is_so("and their store has all of them", one.later("return (await site.get('note/shared')).siblings.length") == 200)
    wait_for("so has the server", lambda: len(parts.ask("/keys/note%2Fshared")["siblings"]) == 200, 60)
    one.later("await site.delete('note/shared', await site.get('note/shared')); return 1")
    wait_for("a delete of one tab is at the server", lambda: parts.ask("/keys?prefix=note/shared")["keys"][0]["siblings"] == 0)
    one.driver.close()
    one.driver.switch_to.window(first)
    wait_for("and is seen in the other tab", lambda: len(one.notes()) == 2)


def two_browsers(parts, one, other):
    other.meet()
    wait_for("another browser gets the notes", lambda: len(other.notes()) == 2)
    numbers = [browser.state().split(".")[0] for browser in (one, other)]
    is_so("it has a number of its own", len(set(numbers)) == 2, numbers)
    parts.end("server")
    one.edit("second, with no network", "edited in one")
    other.edit("second, with no network", "edited in the other")
    parts.start("server")
    for browser in (one, other):
        wait_for("both versions are shown", lambda: ["edited in one", "edited in the other"] in [sorted(note) for note in browser.notes()], 20)
    one.press("#notes .apart .both")
    wait_for("one resolves them", lambda: "edited in one" in str(one.notes()) and not one.run("return document.querySelector('.apart')"))
    wait_for("and the other sees it", lambda: sorted(map(len, other.notes())) == [1, 1] and other.notes() == one.notes(), 60)


def by_hand(one, other):
    """A note that comes in leaves the one alone that is typed in; and what was just typed is deleted by a click."""
    one.add("typed")
    wait_for("the other has it", lambda: ["typed"] in other.notes())
    area = next(it for it in one.driver.find_elements("css selector", "#notes textarea") if it.get_property("value") == "typed")
    area.send_keys(" half")
    other.add("comes in")
    wait_for("a note comes in", lambda: ["comes in"] in one.notes())
    one.driver.switch_to.active_element.send_keys(" and the rest")
    is_so("what is typed stays where it was typed", ["typed half and the rest"] in one.notes(), one.notes())
    area.find_element("xpath", "..").find_element("css selector", ".delete").click()
    wait_for("what was just typed is deleted", lambda: not any("typed" in text for note in other.notes() for text in note))
    is_so("by whoever typed it, too", not any("typed" in text for note in one.notes() for text in note), one.notes())
    at = next(it for it in other.driver.find_elements("css selector", "#notes li") if "comes in" in it.find_element("tag name", "textarea").get_property("value"))
    at.find_element("css selector", ".delete").click()
    wait_for("and the other is", lambda: ["comes in"] not in one.notes())


def counted(parts, one):
    """How many requests sessions take; and how many more there are as the browser asks first whether the page may ask (a preflight)."""
    def preflights():
        return sum(int(line.split()[1]) for line in parts.tell("/metrics", parts.empty).splitlines() if 'status="204"' in line)

    parts.start("empty")
    begin = f"""const {{ counted }} = await import('./counted.mjs'), {{ Client }} = await import('./mvd.js');
        const client = () => new Client('{parts.empty}', {{ token: '{TOKEN}' }}), far = client(), own = await Site.open('counted', {{ site: 70000 }});"""
    rows = one.later(begin + """const rows = await counted(own, far, client());
        for (let i = 0; i < 10; i++) await far.put(`n${i}`, { again: i }, await far.get(`n${i}`));
        return rows""")
    is_so("sessions take few requests", isinstance(rows, list), rows)
    before = preflights()
    told = one.later(begin + "const report = await own.sync(far); return [report.keys, far.requests]")
    is_so("10 of 1,000 keys cross from another origin in at most 3 requests, and as many preflights at most",
          isinstance(told, list) and told[0] == 10 and told[1] <= 3 >= preflights() - before, f"{told}, {preflights() - before} preflights")
    parts.end("empty")


def in_the_middle(parts, one, other):
    """The server is killed while many notes cross."""
    text = "{ text: `${i} ` + 'lorem '.repeat(30) }"
    said = one.later("await Promise.all(Array.from({ length: 600 }, (_, i) => site.put(`note/many${i}`, " + text + "))); return 1")
    is_so("one writes 600 notes", said == 1, said)
    for turn in range(3):
        time.sleep(.3)
        parts.end("server")
        time.sleep(.3)
        parts.start("server")
    wait_for("what was cut goes on", lambda: len(parts.ask("/keys?prefix=note/&live=1")["keys"]) == 602, 120)
    wait_for("the other browser has it", lambda: len(other.notes()) == 602, 90)
    mine, theirs = (browser.later("return JSON.stringify((await site.rows('note/')).map(([key, row]) => [key, row.digest]))") for browser in (one, other))
    is_so("the stores hold the same", mine == theirs)


def main():
    words = argparse.ArgumentParser(usage=__doc__)
    words.add_argument("--port", type=int, default=27310)
    words.add_argument("program")
    given = words.parse_args()
    with tempfile.TemporaryDirectory() as folder:
        parts, browsers = Parts(given.program, pathlib.Path(folder), given.port), []
        try:
            parts.start("web")
            parts.start("server")
            browsers = [Browser(parts), Browser(parts)]
            alone(parts, browsers[0])
            stores(browsers[0])
            two_tabs(parts, browsers[0])
            two_browsers(parts, *browsers)
            by_hand(*browsers)
            in_the_middle(parts, *browsers)
            counted(parts, browsers[0])
            for browser in browsers:
                told = [entry["message"] for entry in browser.driver.get_log("browser")]
                said = [message for message in told if not any(known in message for known in KNOWN)]
                is_so("the browser tells of no fault", not said, said or "")
        finally:
            for browser in browsers:
                browser.driver.quit()
            parts.end(*list(parts.running))


if __name__ == "__main__":
    main()
