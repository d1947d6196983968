#!/usr/bin/env python3
"""Opens a page of `rim-page` in Chromium, without a window, and looks at what it does there. Not part of the gate.

usage: tools/trials/page_in_browser.py PAGE.html FOLDER

- It asks for nothing but itself, and its console says nothing; how long it takes to be shown.
- The table is sorted and searched, by clicks and letters as a person makes them. A value that is selected has all digits and nothing else.
- Each text has at least 4.5 to 1 against its ground, on a light and on a dark one, and what is drawn 3 to 1 (WCAG 2, AA). Names and labels for
  screen readers; headings in their order.
- On a phone each value can be read. No text of a picture is cut, and no number breaks.
- Pictures of it are put into FOLDER: wide.png, phone.png, phone-launches.png, dark.png, paper.pdf, and part.png, which is the part of the second launch as far as its
  bar: that of examples/vm/manifest.toml, made small by pngquant, is docs/rim-page.png.

It needs Debian's chromium. The last line is 'N passed, M failed'.
"""
from __future__ import annotations

import base64
import json
import re
import secrets
import shutil
import signal
import socket
import subprocess
import sys
import tempfile
import time
import urllib.parse
import urllib.request
from pathlib import Path

# How long Chromium may take to begin, and to answer: a thousand launches are as many sheets of paper.
SECONDS = 300
# The longest page that is shown whole in a picture.
MOST_HEIGHT = 3000
# What axe and the like ask of each page, in words of this project. Answers a list of what is wrong.
LABELS = """
(() => {
const wrong = [], text = each => (each.textContent || "").trim();
const ids = [...document.querySelectorAll("[id]")].map(each => each.id);
if (new Set(ids).size !== ids.length) wrong.push("an id is given twice");
if (!document.documentElement.lang || !document.title) wrong.push("no language or no title");
for (const each of document.querySelectorAll("input"))
    if (!each.labels || !each.labels.length || !text(each.labels[0])) wrong.push("an input without a label");
for (const each of document.querySelectorAll("button, a")) if (!text(each)) wrong.push("a button or a link without a name");
for (const each of document.querySelectorAll("svg"))
    if (each.getAttribute("aria-hidden") !== "true" && (each.getAttribute("role") !== "img" || !each.querySelector("title")))
        wrong.push("a picture without a text");
for (const each of document.querySelectorAll("table")) {
    if (!each.caption || !text(each.caption)) wrong.push("a table without a caption");
    for (const cell of each.querySelectorAll("th")) if (!cell.scope) wrong.push("a heading of a table without its scope");
}
for (const each of document.querySelectorAll("[role=region]"))
    if (!each.getAttribute("aria-label") || each.tabIndex !== 0) wrong.push("a region without a name, or out of reach of the keyboard");
for (const each of document.querySelectorAll("a[href^='#']"))
    if (!document.getElementById(each.hash.slice(1))) wrong.push("a link to nowhere: " + each.hash);
let level = 0;
for (const each of document.querySelectorAll("h1, h2, h3")) {
    const here = Number(each.tagName[1]);
    if (here > level + 1) wrong.push("a heading too deep: " + text(each));
    level = here;
}
if (document.querySelectorAll("h1").length !== 1 || document.querySelectorAll("main").length !== 1) wrong.push("not one h1 and one main");
return wrong.slice(0, 9);
})()
"""
# The least contrast of texts and of what is drawn, with what has too little.
CONTRAST = """
(() => {
const numbers = text => (text.match(/[\\d.]+/g) || []).map(Number);
const light = ([r, g, b]) => [r, g, b].map(c => (c /= 255) <= .03928 ? c / 12.92 : ((c + .055) / 1.055) ** 2.4)
    .reduce((sum, c, at) => sum + c * [.2126, .7152, .0722][at], 0);
const ratio = (one, other) => { const [a, b] = [light(one), light(other)].sort((x, y) => y - x); return (a + .05) / (b + .05); };
const solid = text => { const [r, g, b, a = 1] = numbers(text); return a === 0 ? null : [r, g, b]; };
const ground = each => { for (; each; each = each.parentElement) { const found = solid(getComputedStyle(each).backgroundColor); if (found) return found; }
    return [255, 255, 255]; };
const stripe = each => { const found = getComputedStyle(each).backgroundImage.match(/rgba?\\([^)]*\\)/g) || [];
    return found.map(solid).filter(Boolean); };
const wrong = [], seen = new Set();
let least = 99, leastDrawn = 99;
const look = (each, colour, grounds, most, what) => {
    for (const under of grounds) {
        const found = ratio(colour, under);
        if (what === "text") least = Math.min(least, found); else leastDrawn = Math.min(leastDrawn, found);
        if (found < most) wrong.push(`${what} ${each.tagName} ${each.getAttribute("class") || ""}: ${found.toFixed(2)}`);
    }
};
for (const each of document.querySelectorAll("body *")) {
    const style = getComputedStyle(each);
    const has = [...each.childNodes].some(node => node.nodeType === 3 && node.data.trim());
    const above = each.parentElement;
    const key = [each.tagName, each.getAttribute("class"), above.tagName, above.getAttribute("class"), style.color, style.fill].join();
    if (seen.has(key) || ["SCRIPT", "STYLE", "title", "desc", "TITLE"].includes(each.tagName)) continue;
    seen.add(key);
    if (has && each instanceof SVGElement) look(each, solid(style.fill), [ground(each)], 4.5, "text");
    else if (has) look(each, solid(style.color), [ground(each), ...stripe(each)], 4.5, "text");
    if (each.tagName === "path" && !["l", "g", "p", "r"].includes(each.getAttribute("class"))) {
        const line = solid(style.stroke === "none" ? style.fill : style.stroke);
        look(each, line, [ground(each.parentElement)], 3, "drawn");
    }
}
return {wrong: wrong.slice(0, 9), least: least.toFixed(2), drawn: leastDrawn.toFixed(2)};
})()
"""
VISIBLE_ROWS = "[...document.querySelectorAll('#launches tbody tr')].filter(each => !each.hidden)"


class Socket:
    """A websocket (RFC 6455) to a program of this machine: texts go and come whole."""

    def __init__(self, url: str):
        parts = urllib.parse.urlsplit(url)
        self.socket = socket.create_connection((parts.hostname, parts.port), SECONDS)
        key = base64.b64encode(secrets.token_bytes(16)).decode()
        self.socket.sendall(f"GET {parts.path} HTTP/1.1\r\nHost: {parts.netloc}\r\nUpgrade: websocket\r\nConnection: Upgrade\r\n"
                            f"Sec-WebSocket-Key: {key}\r\nSec-WebSocket-Version: 13\r\n\r\n".encode())
        self.left = b""
        while b"\r\n\r\n" not in self.left:
            self.left += self.socket.recv(65536)
        head, _, self.left = self.left.partition(b"\r\n\r\n")
        if b" 101 " not in head.split(b"\r\n")[0]:
            raise ConnectionError(head.decode(errors="replace"))

    def send(self, text: str):
        data, mask = text.encode(), secrets.token_bytes(4)
        size = bytes([0x80 | len(data)]) if len(data) < 126 else b"\xfe" + len(data).to_bytes(2, "big") if len(data) < 1 << 16 else \
            b"\xff" + len(data).to_bytes(8, "big")
        masked = (int.from_bytes(data, "big") ^ int.from_bytes((mask * (len(data) // 4 + 1))[:len(data)], "big")).to_bytes(len(data), "big")
        self.socket.sendall(b"\x81" + size + mask + masked)

    def take(self, count: int) -> bytes:
        parts = [self.left]
        while sum(map(len, parts)) < count:
            part = self.socket.recv(1 << 20)
            if not part:
                raise ConnectionError("the browser has ended")
            parts.append(part)
        whole = b"".join(parts)
        self.left = whole[count:]
        return whole[:count]

    def receive(self) -> str:
        """The next text; what else comes is passed over."""
        said = b""
        while True:
            first, second = self.take(2)
            length = second & 127
            if length > 125:
                length = int.from_bytes(self.take(2 if length == 126 else 8), "big")
            part = self.take(length)
            if first & 15 in (0, 1):
                said += part
                if first & 128:
                    return said.decode()


class Browser:
    """Chromium with one page, and what that has asked for and said."""

    def __init__(self, folder: str):
        words = ["chromium", "--headless", "--no-sandbox", "--disable-gpu", "--hide-scrollbars", "--remote-debugging-port=0", "--no-first-run",
                 f"--user-data-dir={folder}", "--disable-background-networking", "about:blank"]
        self.process = subprocess.Popen(words, stdout=subprocess.DEVNULL, stderr=subprocess.PIPE, text=True, start_new_session=True)
        try:
            self.socket, self.number, self.events = self.begun(), 0, []
        except BaseException:
            self.end()
            raise

    def begun(self) -> Socket:
        """A socket to its one page, once it says where it listens."""
        port = next(found[1] for line in self.process.stderr if (found := re.search(r"listening on ws://127\.0\.0\.1:(\d+)/", line)))
        with urllib.request.urlopen(f"http://127.0.0.1:{port}/json/list", timeout=SECONDS) as said:
            pages = [each for each in json.load(said) if each["type"] == "page"]
        return Socket(pages[0]["webSocketDebuggerUrl"])

    def ask(self, method: str, **parameters) -> dict:
        self.number += 1
        self.socket.send(json.dumps({"id": self.number, "method": method, "params": parameters}))
        while True:
            said = json.loads(self.socket.receive())
            if said.get("id") == self.number:
                if "error" in said:
                    raise RuntimeError(f"{method}: {said['error']}")
                return said["result"]
            self.events.append(said)

    def wait(self, method: str):
        while not any(each.get("method") == method for each in self.events):
            self.events.append(json.loads(self.socket.receive()))

    def value(self, script: str):
        """What a script says in the page."""
        said = self.ask("Runtime.evaluate", expression=script, returnByValue=True, awaitPromise=True)
        if "exceptionDetails" in said:
            raise RuntimeError(json.dumps(said["exceptionDetails"])[:400])
        return said["result"].get("value")

    def click(self, script: str, count: int = 1):
        """Clicks in the middle of what a script says."""
        at = self.value(f"(() => {{ const each = {script}; each.scrollIntoView({{block: 'center'}}); const box = each.getBoundingClientRect(); "
                        "return [box.x + box.width / 2, box.y + box.height / 2]; })()")
        for times in range(1, count + 1):
            for kind in ("mousePressed", "mouseReleased"):
                self.ask("Input.dispatchMouseEvent", type=kind, x=at[0], y=at[1], button="left", clickCount=times)

    def size(self, width: int, height: int, is_phone: bool = False):
        self.ask("Emulation.setDeviceMetricsOverride", width=width, height=height, deviceScaleFactor=2 if is_phone else 1, mobile=is_phone)

    def scheme(self, name: str):
        self.ask("Emulation.setEmulatedMedia", media="", features=[{"name": "prefers-color-scheme", "value": name}])

    def picture(self, path: Path, **parameters):
        said = self.ask("Page.captureScreenshot", format="png", **parameters)
        path.write_bytes(base64.b64decode(said["data"]))

    def end(self):
        self.process.terminate()
        try:
            self.process.wait(10)
        except subprocess.TimeoutExpired:
            self.process.kill()
            self.process.wait()


def opened(browser: Browser, page: Path) -> list[str]:
    """Opens the page, and says what it asks for, what its console says, and how long it takes."""
    for domain in ("Page", "Runtime", "Log", "Network"):
        browser.ask(f"{domain}.enable")
    browser.size(1280, 1000)
    browser.ask("Page.navigate", url=page.as_uri())
    browser.wait("Page.loadEventFired")
    time.sleep(0.5)
    shown = browser.value("performance.getEntriesByName('first-contentful-paint').map(each => each.startTime)[0]")
    loaded = browser.value("performance.getEntriesByType('navigation')[0].loadEventEnd")
    print(f"shown after {shown or 0:.0f} ms, all there after {loaded:.0f} ms")
    asked = [each["params"]["request"]["url"] for each in browser.events if each.get("method") == "Network.requestWillBeSent"]
    said = [json.dumps(each["params"])[:300] for each in browser.events
            if each.get("method") in ("Log.entryAdded", "Runtime.exceptionThrown", "Runtime.consoleAPICalled")]
    others = [url for url in asked if url != page.as_uri() and not url.startswith("data:")]
    return [f"it asks for {url}" for url in others] + [f"its console says {line}" for line in said]


def sorted_by_clicks(browser: Browser) -> list[str]:
    """Clicks each head of the table, twice, and looks at the order of its column."""
    wrong = []
    for column in range(browser.value("document.querySelectorAll('#launches thead th').length")):
        keys = (f"{VISIBLE_ROWS}.map(row => row.cells[{column}]).map(cell => cell.dataset.n ?? cell.textContent)")
        head = f"document.querySelectorAll('#launches thead th')[{column}]"
        found = []
        for way in ("ascending", "descending"):
            browser.click(f"{head}.querySelector('button')")
            if browser.value(f"{head}.getAttribute('aria-sort')") != way:
                wrong.append(f"column {column} is not {way}")
            found.append(browser.value(keys))
        if browser.value(f"Boolean({head}.dataset.kind)") and [int(each) for each in found[0]] != sorted(map(int, found[0])):
            wrong.append(f"column {column}: {found[0][:5]}")
        if sorted(found[0]) != sorted(found[1]) or len(set(found[0])) > 1 and found[0] == found[1]:
            wrong.append(f"column {column} is the same both ways")
    return wrong


def searched(browser: Browser) -> list[str]:
    """Types the beginning of the last launch's value, and looks at which launches are left; then nothing again."""
    last = browser.value(f"{VISIBLE_ROWS}.at(-1).querySelector('samp')?.textContent.slice(0, 12) ?? 'refused'")
    browser.click("document.getElementById('search')")
    browser.ask("Input.insertText", text=last.upper())
    wrong = [] if browser.value(f"{VISIBLE_ROWS}.every(row => row.textContent.includes('{last}'))") else ["other launches are left"]
    said, left = browser.value("document.getElementById('found').textContent"), browser.value(f"{VISIBLE_ROWS}.length")
    wrong += [] if re.match(rf"{left} of \d+ launches are shown", said) and left else [f"{said!r}, and {left} are left"]
    parts = browser.value("[...document.querySelectorAll('section[id^=l]')].filter(each => !each.hidden).length")
    wrong += [] if parts == left else [f"{parts} parts of {left} launches are shown"]
    for _ in last:
        for kind in ("keyDown", "keyUp"):
            browser.ask("Input.dispatchKeyEvent", type=kind, key="Backspace", code="Backspace", windowsVirtualKeyCode=8)
    return wrong + ([] if browser.value(f"{VISIBLE_ROWS}.length === document.querySelectorAll('#launches tbody tr').length") else ["not all are back"])


def selected(browser: Browser) -> list[str]:
    """Selects a value by two clicks, and all of a row: the digits come whole."""
    digits = browser.value("document.querySelector('#launches samp').textContent")
    browser.click("document.querySelector('#launches samp')", 2)
    found = browser.value("getSelection().toString()").strip()
    wrong = [] if found == digits and len(digits) in (64, 128) else [f"two clicks select {found!r}"]
    browser.value("getSelection().selectAllChildren(document.querySelector('#launches samp').closest('tr'))")
    found = browser.value("getSelection().toString()")
    return wrong + ([] if digits in found else [f"a row is copied as {found!r}"])


def contrasts(browser: Browser) -> list[str]:
    wrong = []
    for scheme in ("light", "dark"):
        browser.scheme(scheme)
        found = browser.value(CONTRAST)
        print(f"{scheme}: the least contrast of a text is {found['least']} to 1, of what is drawn {found['drawn']} to 1")
        wrong += [f"{scheme}: {each}" for each in found["wrong"]]
    browser.scheme("light")
    return wrong


def fits(browser: Browser) -> list[str]:
    """On a phone no part is wider than the page but those that are moved by themselves, and each value in the table can be read."""
    browser.size(390, 844, True)
    width = browser.value("document.documentElement.scrollWidth")
    hidden = browser.value("[...document.querySelectorAll('#launches samp')].filter(each => { const box = each.getBoundingClientRect(); "
                           "return box.left < 0 || box.right > 390 || !box.height; }).length")
    return [f"it is {width} wide on a phone of 390"] * (width > 390) + [f"{hidden} values are off the screen of a phone"] * bool(hidden)


def whole_texts(browser: Browser) -> list[str]:
    """No text of a picture is cut, and no number breaks."""
    browser.size(1280, 1000)
    cut = browser.value("[...document.querySelectorAll('svg.map text')].filter(each => { const box = each.getBBox(); "
                        "return box.x < 0 || box.x + box.width > each.ownerSVGElement.viewBox.baseVal.width; }).map(each => each.textContent)")
    broken = browser.value("[...document.querySelectorAll('td')].filter(each => /^(0x[0-9a-f]+|[\\d,]+)$/.test(each.textContent) && "
                           "(range => (range.selectNodeContents(each), range.getClientRects().length > 1))(document.createRange()))"
                           ".map(each => each.textContent)")
    return [f"a picture cuts {text!r}" for text in cut[:9]] + [f"a number breaks: {text}" for text in broken[:9]]


def pictures(browser: Browser, folder: Path):
    browser.value("getSelection().removeAllRanges(); scrollTo(0, 0)")
    browser.size(390, 1800, True)
    browser.picture(folder / "phone.png")
    browser.value("document.getElementById('launches')?.scrollIntoView()")
    browser.picture(folder / "phone-launches.png")
    browser.size(900, 1000)
    at = browser.value("(() => { const part = document.getElementById('l2'); if (!part) return null; part.scrollIntoView(); "
                       "const end = part.querySelector('.key, dl').getBoundingClientRect(), top = part.getBoundingClientRect(); "
                       "return [top.x + scrollX, top.y + scrollY, top.width, end.bottom - top.y]; })()")
    if at:
        clip = dict(zip(("x", "y", "width", "height"), (at[0] - 8, at[1], at[2] + 16, at[3] + 8)), scale=1)
        browser.picture(folder / "part.png", clip=clip, captureBeyondViewport=True)
    browser.value("scrollTo(0, 0)")
    height = min(MOST_HEIGHT, browser.value("document.documentElement.scrollHeight"))
    browser.size(1280, height)
    browser.picture(folder / "wide.png")
    browser.scheme("dark")
    browser.picture(folder / "dark.png")
    browser.scheme("light")
    said = browser.ask("Page.printToPDF", preferCSSPageSize=True, printBackground=False, paperWidth=8.27, paperHeight=11.69)
    (folder / "paper.pdf").write_bytes(base64.b64decode(said["data"]))


def main(words: list[str]) -> int:
    if len(words) != 2 or not shutil.which("chromium"):
        print("page_in_browser.py: expected PAGE.html FOLDER, and the program chromium", file=sys.stderr)
        return 2
    page, folder = Path(words[0]).resolve(), Path(words[1])
    # whatever stops this ends the browser too
    for number in (signal.SIGTERM, signal.SIGHUP, signal.SIGINT):
        signal.signal(number, lambda came, _frame: sys.exit(128 + came))
    folder.mkdir(parents=True, exist_ok=True)
    with tempfile.TemporaryDirectory(ignore_cleanup_errors=True) as profile:
        browser = Browser(profile)
        try:
            came = {"requests and the console": opened(browser, page)}
            if browser.value("Boolean(document.querySelector('#launches tbody tr'))"):
                came |= {"sorting": sorted_by_clicks(browser), "searching": searched(browser), "selecting": selected(browser)}
            came |= {"contrast": contrasts(browser), "labels": browser.value(LABELS), "a phone": fits(browser), "texts and numbers": whole_texts(browser)}
            for name, wrong in came.items():
                print(*(f"WRONG: {name}: {line}" for line in wrong), sep="\n", end="\n" * bool(wrong), flush=True)
            pictures(browser, folder)
        finally:
            browser.end()
    failed = sum(map(bool, came.values()))
    print(f"{len(came) - failed} passed, {failed} failed")
    return int(failed > 0)


if __name__ == "__main__":
    sys.exit(main(sys.argv[1:]))
