"""The server's page in a real browser: Debian's chromium, driven by its chromedriver over HTTP."""
import atexit
import base64
import http.client
import json
import random
import shutil
import subprocess
import time
from pathlib import Path

from http_places import written
from http_server import PATIENCE, Server, free_port, soon
from http_tools import pixels

SIDE, WIDTH, HEIGHT = 25, 1200, 800
CHROME = ["--headless=new", "--no-sandbox", "--disable-gpu", "--disable-dev-shm-usage", "--hide-scrollbars", f"--window-size={WIDTH},{HEIGHT}"]
ROAD, ROUTE = {"light": (0x8D, 0x87, 0x79), "dark": (0x6D, 0x74, 0x80)}, {"light": (0xC0, 0x14, 0x3C), "dark": (0xFF, 0x6B, 0x81)}


class Browser:
    """A session of chromedriver."""

    def __init__(self):
        self.port = free_port()
        self.run = subprocess.Popen(["chromedriver", f"--port={self.port}"], stdout=subprocess.DEVNULL, stderr=subprocess.DEVNULL)
        atexit.register(self.run.kill)
        soon(lambda: self.is_ready(), PATIENCE)
        wanted = {"browserName": "chrome", "goog:chromeOptions": {"args": CHROME}}
        self.session = "/session/" + self.call("POST", "/session", {"capabilities": {"alwaysMatch": wanted}})["sessionId"]
        self.command("Emulation.setDeviceMetricsOverride", width=WIDTH, height=HEIGHT, deviceScaleFactor=1, mobile=False)

    def is_ready(self):
        try:
            return self.call("GET", "/status")["ready"]
        except OSError:
            return False

    def call(self, method, path, body=None):
        one = http.client.HTTPConnection("127.0.0.1", self.port, timeout=PATIENCE)
        one.request(method, path, json.dumps(body) if body is not None else None, {"Content-Type": "application/json"})
        reply = json.loads(one.getresponse().read())["value"]
        one.close()
        if isinstance(reply, dict) and "error" in reply:
            raise RuntimeError(f"{path}: {reply['message'][:300]}")
        return reply

    def command(self, name, **words):
        """A command of the debugging protocol."""
        return self.call("POST", self.session + "/goog/cdp/execute", {"cmd": name, "params": words})

    def open(self, url, colours="light"):
        self.command("Emulation.setEmulatedMedia", features=[{"name": "prefers-color-scheme", "value": colours}])
        self.call("POST", self.session + "/url", {"url": "about:blank"})
        self.call("POST", self.session + "/url", {"url": url})

    def value(self, code):
        """What an expression is in the page."""
        return self.call("POST", self.session + "/execute/sync", {"script": f"return {code};", "args": []})

    def wait(self, code):
        return soon(lambda: self.value(code))

    def act(self, *each, kind="mouse"):
        """What a mouse does, or what fingers do at once."""
        actions = [{"type": "pointer", "id": f"{kind} {i}", "parameters": {"pointerType": kind}, "actions": steps} for i, steps in enumerate(each)]
        self.call("POST", self.session + "/actions", {"actions": actions})

    def click(self, x, y):
        self.act(pressed((x, y)))

    def drag(self, *places, kind="mouse"):
        self.act(pressed(*places), kind=kind)

    def wheel(self, x, y, by):
        self.call("POST", self.session + "/actions", {"actions": [{"type": "wheel", "id": "wheel", "actions": [
            {"type": "scroll", "x": x, "y": y, "deltaX": 0, "deltaY": by, "duration": 50}]}]})

    def picture(self, path, colour, least):
        """The points of a picture, when so many have a colour, or after five tries; and how many have it."""
        for _ in range(5):
            Path(path).write_bytes(base64.b64decode(self.call("GET", self.session + "/screenshot")))
            rows = pixels(path)
            found = sum(it == colour for row in rows for it in row)
            if found >= least:
                break
            time.sleep(1)
        return rows, found

    def end(self):
        self.call("DELETE", self.session)
        self.run.terminate()
        self.run.wait(PATIENCE)


def move(x, y, duration=0):
    return {"type": "pointerMove", "x": round(x), "y": round(y), "duration": duration}


def pressed(first, *others):
    """The steps to a place, and from there, pressed down, to others."""
    return [move(*first), {"type": "pointerDown", "button": 0}, *(move(*place, 100) for place in others), {"type": "pointerUp", "button": 0}]


def streets(room):
    """A town of streets: rows and columns with names, in seconds and in metres, and one vertex that no road leaves."""
    lot, n = random.Random(7), SIDE * SIDE
    arcs, places = [], [f"v {n + 1} 9500000 47100000"]
    for v in range(n):
        row, column = divmod(v, SIDE)
        places.append(f"v {v + 1} {9500000 + 2000 * column + lot.randint(-300, 300)} {47100000 + 1400 * row + lot.randint(-200, 200)}")
        for other, name, is_there in ((v + 1, f"Row {row}", column + 1 < SIDE), (v + SIDE, f"Column {column}", row + 1 < SIDE)):
            if is_there:
                weight = lot.randint(10, 40)
                arcs += [(v + 1, other + 1, weight, name), (other + 1, v + 1, weight, name)]
    arcs.append((1, n + 1, 5, ""))
    head = f"p sp {n + 1} {len(arcs)}\n"
    return (written(room, "town.gr", head + "".join(f"a {a} {b} {w}\n" for a, b, w, _ in arcs)), "--places", written(room, "town.co", "\n".join(places) + "\n"),
            "--also", f"metres={written(room, 'town.m.gr', head + ''.join(f'a {a} {b} {150}' + chr(10) for a, b, _, _ in arcs))}",
            "--names", written(room, "town.names", "".join(f"{i} {name}\n" for i, (_, _, _, name) in enumerate(arcs, 1) if name)))


def by_browser(room, pictures):
    """The page: roads are seen, clicks, drags, the wheel and the link do what they say, and the route drawn is that of /route."""
    if not shutil.which("chromium") or not shutil.which("chromedriver"):
        print("chromium or chromedriver is not installed: not run", flush=True)
        return
    server, browser = Server(*streets(room), "--unit", "s", "--snap-limit", "5000"), Browser()
    url = f"http://127.0.0.1:{server.port}/"
    browser.open(url)
    yield from sees_roads(browser, Path(pictures or room), "light")
    yield from obeys_fingers(browser)
    browser.open(url)
    browser.wait("roads.length > 0")
    yield from asks_for_a_route(server, browser)
    yield from goes_by_streets(server, browser)
    yield from reaches(browser)
    yield from keeps_a_link(browser, url)
    yield from says_errors(browser)
    for colours in ("light", "dark"):
        browser.open(url + browser.value("location.hash"), colours)
        browser.wait("answer && answer.route && roads.length > 0")
        yield from sees_roads(browser, Path(pictures or room), colours)
    rows, drawn = browser.picture(Path(pictures or room) / "map-dark.png", ROUTE["dark"], 300)
    if drawn < 300 or sum(rows[HEIGHT - 10][WIDTH - 10]) > 200:
        yield f"in the dark: {drawn} points of the route, over {rows[HEIGHT - 10][WIDTH - 10]}"
    yield from server.ends()
    yield from has_words_without_server(browser)
    browser.end()


def sees_roads(browser, folder, colours):
    if not browser.wait("roads.length > 0"):
        yield f"no roads: {browser.value('document.body.innerText')}"
    _, drawn = browser.picture(folder / f"map-{colours}.png", ROAD[colours], 1000)
    if drawn < 1000:
        yield f"{drawn} points of roads are drawn, {colours}"


def same_route(server, browser):
    """Whether the line that is drawn is what /route gives for the markers."""
    stops = [",".join(map(str, place)) for place in browser.value("stops.map(it => it.map(x => x.toFixed(6)))")]
    via = f"&via={';'.join(stops[1:-1])}" if stops[1:-1] else ""
    wanted = server.ask(f"/route?from={stops[0]}&to={stops[-1]}{via}&geometry=geojson")[1]
    return soon(lambda: browser.value("line") == wanted["geometry"]["coordinates"] and browser.value("answer.value") == wanted["value"])


def asks_for_a_route(server, browser):
    browser.click(500, 600)
    browser.click(1000, 200)
    if not browser.wait("answer && answer.route") or not same_route(server, browser):
        yield f"two clicks: {browser.value('document.body.innerText')}"
        return
    if "min" not in browser.value("at('said').textContent") or " km" not in browser.value("at('said').textContent"):
        yield f"no time and metres: {browser.value('at(`said`).textContent')}"
    before = browser.value("JSON.stringify(line)")
    browser.drag(browser.value("onScreen(stops[1])"), (900, 500), (1050, 650))
    if not browser.wait(f"JSON.stringify(line) !== {json.dumps(before)}") or not same_route(server, browser):
        yield "a drag does not change the route"
    middle = browser.value("onScreen(line[Math.floor(line.length / 2)])")
    browser.click(*middle)
    if not browser.wait("stops.length === 3 && answer.legs") or not same_route(server, browser):
        yield f"a click on the route makes no place between: {browser.value('stops')}"
    browser.drag(browser.value("onScreen(stops[1])"), (700, 300))
    if not browser.wait("answer.legs && answer.legs.length === 2") or not same_route(server, browser):
        yield "a place between can't be dragged"
    scale, middle = browser.value("view.scale"), browser.value("onEarth(600, 400)")
    browser.wheel(600, 400, -400)
    if not browser.wait(f"view.scale > {1.5 * scale}") or max(abs(a - b) for a, b in zip(middle, browser.value("onEarth(600, 400)"))) > 1e-6:
        yield "the wheel does not zoom about its place"
    before = browser.value("onEarth(800, 650)")
    browser.drag((800, 650), (850, 600))
    if max(abs(a - b) for a, b in zip(before, browser.value("onEarth(850, 600)"))) > 1e-6 or browser.value("stops.length") != 3:
        yield "a drag does not pan"
    browser.value("at('fit').click()")
    if not browser.wait("onScreen(stops[0]).every(x => x > 0)"):
        yield "fit does not show the route"


def obeys_fingers(browser):
    """One finger pans, and two zoom by as much as they part."""
    before = browser.value("onEarth(800, 650)")
    browser.drag((800, 650), (850, 600), kind="touch")
    if max(abs(a - b) for a, b in zip(before, browser.value("onEarth(850, 600)"))) > 1e-6:
        yield "a finger does not pan"
    scale = browser.value("view.scale")
    browser.act(pressed((550, 400), (500, 400)), pressed((650, 400), (700, 400)), kind="touch")
    if not 1.95 < browser.value("view.scale") / scale < 2.05 or browser.value("stops.length") != 0:
        yield f"two fingers zoom by {browser.value('view.scale') / scale}"


def goes_by_streets(server, browser):
    steps = browser.value("[...document.querySelectorAll('#steps li')].map(it => it.textContent)")
    wanted = [step["street"] for step in browser.value("answer.steps")]
    if not steps or [step.split(":")[0] for step in steps] != [street or "without a name" for street in wanted] or not any(it.startswith(("Row ", "Column ")) for it in steps):
        yield f"steps: {steps}"


def reaches(browser):
    browser.value("(at('limit').value = '3', at('reach').click())")
    if not browser.wait("reach.length > 10 && new Set(reach.map(it => it.band)).size === 5") or browser.value("document.querySelectorAll('#key span').length") != 5:
        yield f"bands: {browser.value('reach.length')}"


def keeps_a_link(browser, url):
    link, line = browser.value("location.hash"), browser.value("JSON.stringify(line)")
    browser.open(url + link)
    if not browser.wait(f"JSON.stringify(line) === {json.dumps(line)}"):
        yield f"the link {link} does not show the route again"


def says_errors(browser):
    link = browser.value("location.hash")
    browser.value("(stops = [[9.51, 47.11], [12, 40]], loadRoute())")
    if not browser.wait("at('said').className === 'error' && at('said').textContent.startsWith('No road is near that place')"):
        yield f"a place that is too far: {browser.value('at(`said`).textContent')}"
    browser.value(f"(location.hash = {json.dumps(link)}, 1)")


def has_words_without_server(browser):
    browser.value("loadRoute()")
    if not browser.wait("at('said').textContent.startsWith('The server does not answer')"):
        yield f"without a server: {browser.value('at(`said`).textContent')}"
