#!/usr/bin/env python3
"""Stamps the page with its policy, and tests it in a real browser.

usage: tools/page.py stamp                            writes the policy with the hashes into the page's first comment
       tools/page.py policy                           prints the policy, and ends with 1 where the comment has another
       tools/page.py test PICTURES [--url URL]        drives the page in Chromium, and puts pictures into that folder

The test serves the page from tools/page_double.py, a double of the site, or asks a server at URL: an empty site with
`index city` and `view visits city days`. It prints what it saw, and ends with 1 at the first thing that is not so. It needs
Debian's chromium, chromium-driver and python3-selenium (/usr/bin/python3 has it, where python3 is another).
"""
import base64
import hashlib
import json
import pathlib
import re
import sys
import time
import urllib.error
import urllib.request

PAGE = pathlib.Path(__file__).parent.parent / "crates/mvd_http/page/page.html"
LINE = re.compile(r"(?m)^Content-Security-Policy: (.*)$")


def policy():
    text = PAGE.read_text()
    hashes = {}
    for tag in ("script", "style"):
        inline = re.search(rf"(?s)<{tag}(?: type=\"module\")?>(.*?)</{tag}>", text[text.index("<head>"):])[1]
        hashes[tag] = base64.b64encode(hashlib.sha256(inline.encode()).digest()).decode()
    return (f"default-src 'none'; script-src 'sha256-{hashes['script']}'; style-src 'sha256-{hashes['style']}'; "
            "connect-src 'self'; img-src data:; base-uri 'none'; form-action 'none'; frame-ancestors 'none'; "
            "require-trusted-types-for 'script'; trusted-types 'none'")


def stamp():
    PAGE.write_text(LINE.sub(lambda _: "Content-Security-Policy: " + policy(), PAGE.read_text(), count=1))


def is_so(what, is_it, seen=""):
    print(f"{'ok ' if is_it else 'NOT'} {what}" + (f": {seen}" if seen else ""), flush=True)
    if not is_it:
        sys.exit(1)


class Client:
    """Somebody else, over HTTP."""

    def __init__(self, url):
        self.url = url

    def ask(self, method, path, body=None, context=None):
        headers = {"Mvd-Context": context} if context else {}
        request = urllib.request.Request(self.url + path, body and body.encode(), headers, method=method)
        try:
            with urllib.request.urlopen(request, timeout=10) as response:
                text = response.read()
        except urllib.error.HTTPError as fault:
            text = fault.read()
        return json.loads(text) if text else None

    def put(self, key, document, context=None):
        return self.ask("PUT", f"/keys/{key}", json.dumps(document), context)["dot"]

    def get(self, key):
        return self.ask("GET", f"/keys/{key}")


class Browser:
    def __init__(self, url):
        from selenium import webdriver
        options = webdriver.ChromeOptions()
        for word in ("--headless=new", "--no-sandbox", "--disable-gpu", "--window-size=1280,900"):
            options.add_argument(word)
        options.set_capability("goog:loggingPrefs", {"browser": "ALL"})
        self.driver = webdriver.Chrome(options=options)
        self.url = url

    def run(self, script, *given):
        return self.driver.execute_script(script, *given)

    def text(self, selector):
        return self.run("return document.querySelector(arguments[0])?.innerText ?? ''", selector)

    def set(self, selector, value):
        self.run("""const node = document.querySelector(arguments[0]); node.value = arguments[1];
            node.dispatchEvent(new Event('input', { bubbles: true }))""", selector, value)

    def press(self, selector):
        self.run("document.querySelector(arguments[0]).click()", selector)

    def keys(self, *keys):
        from selenium.webdriver.common.action_chains import ActionChains
        ActionChains(self.driver).send_keys(*keys).perform()

    def until(self, what, selector, words):
        """Waits until the element says these words."""
        end = time.time() + 15
        while words not in self.text(selector) and time.time() < end:
            time.sleep(.05)
        is_so(what, words in self.text(selector), self.text(selector).replace("\n", " | ")[:200])

    def look_up(self, key, words):
        self.set("#key", key)
        self.press("#look button")
        self.until(f"looks up {key}", "#outcome", words)

    def shape(self, width, scheme):
        self.driver.execute_cdp_cmd("Emulation.setDeviceMetricsOverride",
                                    {"width": width, "height": 900, "deviceScaleFactor": 1, "mobile": width < 500})
        self.driver.execute_cdp_cmd("Emulation.setEmulatedMedia", {"features": [{"name": "prefers-color-scheme", "value": scheme}]})

    def picture(self, path):
        shot = self.driver.execute_cdp_cmd("Page.captureScreenshot", {"captureBeyondViewport": True})
        path.write_bytes(base64.b64decode(shot["data"]))


def siblings_differ(browser, other):
    other.put("ada", {"city": "Oslo", "days": 3, "mail": "ada@a.example"})
    other.put("ada", {"address": {"street": "Kirkegata"}, "city": "Bergen", "days": 3})
    browser.look_up("ada", "2 siblings were written")
    browser.until("tells what differs", "#differences", "1 added, 1 removed, 1 other value")
    cells = browser.run("""return [...document.querySelectorAll('.siblings tbody tr')].map((row) => [...row.cells].flatMap((cell) =>
        [...cell.childNodes].filter((node) => node.className !== 'take').map((node) => node.textContent)).join(' '))""")
    for wanted in ("address.street not there + added \"Kirkegata\"", "city \"Oslo\" ≠ other value \"Bergen\"", "days 3 3",
                   "mail \"ada@a.example\" − removed"):
        is_so(f"marks {wanted}", wanted in cells)


def pictures(browser, folder):
    folder.mkdir(parents=True, exist_ok=True)
    for name, width, scheme in (("light", 1280, "light"), ("dark", 1280, "dark"), ("narrow", 360, "light"), ("narrow-dark", 360, "dark")):
        browser.shape(width, scheme)
        time.sleep(.3)
        wide = browser.run("return document.documentElement.scrollWidth")
        is_so(f"{name}: nothing stands out at the side", wide <= width, wide)
        browser.picture(folder / f"{name}.png")
    browser.shape(1280, "light")


def resolves(browser, other):
    browser.press("button[aria-label='Pick 1:2']")
    browser.until("picks one", "#outcome", "Written as 1:3. It is the one sibling now.")
    is_so("the picked document alone is left", [one["document"]["city"] for one in other.get("ada")["siblings"]] == ["Bergen"])
    browser.set("#document", '{"city":')
    browser.until("tells a fault as it is typed", "#check", "line 1, column 9")
    browser.set("#document", '{"n":1.5}')
    browser.until("tells a number that is not whole", "#check", "1.5 is no whole number")
    browser.set("#document", '{"city":"Oslo","days":9007199254740993}')
    browser.press("#write")
    browser.until("writes an edited document", "#outcome", "Written as 1:4. It is the one sibling now.")
    is_so("a long number is kept", other.get("ada")["siblings"][0]["document"]["days"] == 9007199254740993)
    browser.until("and shown", "#siblings", "9007199254740993")


def meets_others(browser, other):
    other.put("ada", {"city": "Rome"})
    browser.press("#write")
    browser.until("tells a write in between", "#outcome", "Somebody else wrote in between: 1:5 stands beside it.")
    is_so("and lost none", len(other.get("ada")["siblings"]) == 2)
    other.put("ada", {"city": "Paris"})
    browser.press("#delete")
    browser.press("#sure-yes")
    browser.until("deletes just what was shown", "#outcome", "Somebody else wrote in between: 1:7 is left.")
    browser.look_up("a b", "Refused, 1 BadKey.")
    browser.look_up("nobody", "does not hold this key")


def loses_the_link(browser, other):
    other.put("link", {"a": 1})
    browser.look_up("link", "One sibling")
    browser.set("#document", '{"a":2}')
    browser.driver.execute_cdp_cmd("Network.enable", {})
    conditions = {"latency": 0, "downloadThroughput": -1, "uploadThroughput": -1}
    browser.driver.execute_cdp_cmd("Network.emulateNetworkConditions", {"offline": True, **conditions})
    browser.press("#write")
    browser.until("tells that no answer came", "#outcome", "The write may have been kept or not")
    is_so("and keeps what was typed", browser.run("return document.querySelector('#document').value") == '{"a":2}')
    browser.driver.execute_cdp_cmd("Network.emulateNetworkConditions", {"offline": False, **conditions})
    browser.press("#write")
    browser.until("and writes it later", "#outcome", "Written as 1:2.")


def shows_text(browser, other):
    other.put("bad", {"note": "<script>window.hit=1</script><img src=x onerror='window.hit=1'>"})
    browser.look_up("bad", "One sibling")
    browser.until("a document is shown as text", "#siblings", "<script>window.hit=1</script>")
    is_so("and does nothing", browser.run("return window.hit === undefined && document.images.length === 0"))


def lists(browser, other):
    for number in range(120):
        other.put(f"k{number}", {"city": "Oslo" if number % 2 else "Rome", "days": number})
    other.put("k7", {"city": "Oslo"})
    browser.set("#prefix", "k1")
    browser.press("#keys-form button")
    browser.until("lists the keys that begin so", "#listed", "31 keys listed, none with more than one sibling.")
    browser.set("#prefix", "")
    browser.press("#keys-form button")
    for _ in range(0 if "--url" in sys.argv else 2):
        browser.until("lists more keys", "#listed", "There are more.")
        browser.press("#more")
        time.sleep(.2)
    browser.until("lists keys, and how many have siblings", "#listed", "122 keys listed, 1 with more than one sibling.")
    browser.press("#kind input[value=conflicts]")
    browser.press("#conflicts-form button")
    browser.until("lists the keys in conflict", "#listed", "1 key listed, 1 with more than one sibling.")
    browser.press("#kind input[value=index]")
    browser.set("#field", "city")
    browser.set("#is", '"Oslo"')
    browser.press("#index-form button")
    if "--url" not in sys.argv:
        browser.until("lists a page of an index", "#listed", "There are more.")
        browser.press("#more")
    browser.until("lists an index", "#listed", "60 keys listed, 1 with more than one sibling.")
    browser.set("#field", "none")
    browser.press("#index-form button")
    browser.until("tells that there is no index", "#listed", "Refused, 12 NoIndex.")
    browser.press("#kind input[value=view]")
    browser.set("#view", "visits")
    browser.press("#view-form button")
    browser.until("lists a view", "#rows", "\"Rome\"\t60\t3540\t0\t118")


def merges(browser, other):
    other.put("mia", {"city": "Oslo", "days": 3, "tags": ["a", "b"]})
    other.put("mia", {"city": "Rome", "mail": "mia@a.example", "tags": ["a", "c"]})
    browser.look_up("mia", "2 siblings were written")
    browser.press("button[aria-label='Take mail of 1:2']")
    browser.until("takes a field", "#outcome", "mail of 1:2 is in the document below.")
    browser.press("button[aria-label='Take tags[1] of 1:2']")
    browser.press("button[aria-label='Take days of 1:2']")
    typed = json.loads(browser.run("return document.querySelector('#document').value"))
    is_so("merges field by field", typed == {"city": "Oslo", "mail": "mia@a.example", "tags": ["a", "c"]}, typed)
    browser.set("#key", "nobody")
    browser.press("#look button")
    browser.until("asks before it drops what was typed", "#sure", "What you typed for mia is not written.")
    browser.press("#sure-no")
    is_so("and keeps it", json.loads(browser.run("return document.querySelector('#document').value")) == typed)
    browser.press("#write")
    browser.until("writes what was merged", "#outcome", "It is the one sibling now.")
    is_so("with just these fields", [one["document"] for one in other.get("mia")["siblings"]] == [typed])


def follows(browser, other):
    other.put("far", {"a": 1})
    browser.look_up("far", "One sibling, 1:1.")
    other.put("far", {"a": 2}, "1:1")
    browser.until("tells that the key changed elsewhere", "#elsewhere", "far changed elsewhere: it has 1:2 now.")
    browser.press("#again")
    browser.until("and shows it as it is now", "#outcome", "One sibling, 1:2.")
    other.put("near", {"a": 1})
    time.sleep(.5)
    is_so("and says nothing of another key", browser.run("return document.querySelector('#elsewhere').hidden"))


def wants_a_token(browser, site):
    site.token = "sixteen-letters!"
    browser.driver.get(browser.url + "/#key=far")
    browser.driver.refresh()
    browser.until("asks for the token", "#door", "This site wants a token.")
    browser.set("#token", site.token)
    browser.press("#token-form button")
    browser.until("and comes in with it", "#outcome", "One sibling, 1:2.")
    site.token = None


def by_keyboard(browser, other):
    from selenium.webdriver.common.keys import Keys
    browser.driver.get(browser.url + "/")
    other.put("kim", {"a": 1})
    other.put("kim", {"a": 2})
    for key in ("kit", "kiv"):
        other.put(key, {"a": 1})
        other.put(key, {"a": 2})
    active = "const at = document.activeElement; return "
    browser.until("keyboard: counts the keys in conflict", "#work", "in conflict")
    for _ in range(4):
        if browser.run(active + "at.id") != "key":
            browser.keys(Keys.TAB)
    browser.keys("kim", Keys.ENTER)
    browser.until("keyboard: looks up", "#outcome", "2 siblings")

    def tab_to(label, most=25):
        for _ in range(most):
            browser.keys(Keys.TAB)
            ring = browser.run(active + "getComputedStyle(at).outlineStyle")
            if ring == "none":
                is_so("keyboard: focus is seen", False, browser.run(active + "at.outerHTML.slice(0, 80)"))
            if browser.run(active + "at.getAttribute('aria-label') ?? at.textContent") == label:
                return
        is_so(f"keyboard: comes to {label}", False)

    tab_to("Pick 1:2")
    browser.keys(Keys.ENTER)
    browser.until("keyboard: picks", "#outcome", "Written as 1:3.")
    time.sleep(.5)
    for key in ("kit", "kiv"):
        browser.keys(Keys.ENTER)
        browser.until(f"keyboard: goes to {key}, the next in conflict", "#state-title", f"{key}: 2 siblings")
        tab_to("Pick 1:2")
        browser.keys(Keys.ENTER)
        browser.until(f"keyboard: resolves {key}", "#outcome", "Written as 1:3.")
        time.sleep(.5)
    tab_to("Delete the key")
    browser.keys(Keys.ENTER, Keys.TAB, Keys.ENTER)
    browser.until("keyboard: deletes", "#outcome", "Deleted. The key has no sibling now.")


def test(folder, url):
    asked = None
    if url is None:
        from page_double import serve
        server = serve(PAGE.read_bytes, {"Content-Security-Policy": policy()}, 50)
        url = f"http://127.0.0.1:{server.server_address[1]}"
        asked = server.RequestHandlerClass.asked
    url = url.rstrip("/")
    with urllib.request.urlopen(url + "/") as response:
        is_so("the policy is the page's", response.headers["Content-Security-Policy"] == policy() == LINE.search(PAGE.read_text())[1])
    other, browser = Client(url), Browser(url)
    try:
        browser.driver.get(url + "/")
        browser.until("tells the site", "#site", "Site 1, 0 keys")
        siblings_differ(browser, other)
        browser.press("#keys-form button")
        browser.until("counts siblings", "#listed", "1 key listed, 1 with more than one sibling.")
        pictures(browser, folder)
        resolves(browser, other)
        meets_others(browser, other)
        if asked is not None:
            contexts = [(method, context) for method, path, context in asked if path == "/keys/ada" and context is not None]
            wanted = [("PUT", "1:2"), ("PUT", "1:3"), ("PUT", "1:4"), ("DELETE", "1:6")]
            is_so("each write has just the context that was shown", contexts == wanted, contexts)
        shows_text(browser, other)
        lists(browser, other)
        merges(browser, other)
        follows(browser, other)
        loses_the_link(browser, other)
        by_keyboard(browser, other)
        if asked is not None:
            wants_a_token(browser, server.RequestHandlerClass.site)
        loaded = browser.run("return performance.getEntriesByType('resource').map((one) => one.name)")
        is_so("loads nothing from elsewhere", all(name.startswith((url, "data:")) for name in loaded))
        faults = [entry["message"] for entry in browser.driver.get_log("browser")
                  if "status of 4" not in entry["message"] and "ERR_INTERNET_DISCONNECTED" not in entry["message"]]
        is_so("the browser tells of no fault", not faults, "; ".join(faults))
    finally:
        browser.driver.quit()


def main(words):
    if words == ["stamp"]:
        stamp()
    elif words == ["policy"]:
        print(policy())
        sys.exit(LINE.search(PAGE.read_text())[1] != policy())
    elif len(words) in (2, 4) and words[0] == "test":
        test(pathlib.Path(words[1]), words[3] if len(words) == 4 else None)
    else:
        sys.exit(__doc__)


if __name__ == "__main__":
    main(sys.argv[1:])
