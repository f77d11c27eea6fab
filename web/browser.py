"""Debian's chromium by its driver, spoken to as WebDriver says (https://www.w3.org/TR/webdriver2/), for `tour.py`."""

import base64
import json
import pathlib
import socket
import subprocess
import time
import urllib.error
import urllib.request

ENTER, TAB, ESCAPE, SPACE, SHIFT = "\ue007", "\ue004", "\ue00c", " ", "\ue008"
ARROW_DOWN = "\ue015"
ELEMENT = "element-6066-11e4-a52e-4f735466cecf"
NAMED = {"textbox", "combobox", "button", "checkbox", "link", "spinbutton", "table", "heading", "navigation"}


class Browser:
    """A window of a browser with nothing in it. Files that it loads down stand in `folder`."""

    def __init__(self, address, folder):
        self.address = address
        with socket.socket() as free:
            free.bind(("127.0.0.1", 0))
            port = free.getsockname()[1]
        self.driver = subprocess.Popen(["chromedriver", f"--port={port}"], stdout=subprocess.DEVNULL)
        self.root = f"http://127.0.0.1:{port}"
        self.messages, self.urls = [], []
        options = {
            "args": [
                "--headless=new",
                "--no-sandbox",
                "--disable-gpu",
                "--hide-scrollbars",
                "--force-device-scale-factor=1",
                "--window-size=1000,900",
            ],
            "prefs": {"download.default_directory": str(folder)},
        }
        wanted = {
            "browserName": "chrome",
            "goog:chromeOptions": options,
            "goog:loggingPrefs": {"browser": "ALL", "performance": "ALL"},
        }
        for attempt in range(100):
            try:
                urllib.request.urlopen(self.root + "/status", timeout=5)
                break
            except OSError:
                time.sleep(0.1)
        session = self.ask("POST", "/session", {"capabilities": {"alwaysMatch": wanted}})
        self.root += "/session/" + session["sessionId"]

    def __enter__(self):
        return self

    def __exit__(self, *_):
        try:
            self.ask("DELETE", "")
        finally:
            self.driver.terminate()
            self.driver.wait()

    def ask(self, method, path, body=None):
        data = None if method != "POST" else json.dumps(body or {}).encode()
        request = urllib.request.Request(self.root + path, data, {"Content-Type": "application/json"}, method=method)
        try:
            with urllib.request.urlopen(request, timeout=120) as reply:
                return json.load(reply)["value"]
        except urllib.error.HTTPError as error:
            raise AssertionError(json.load(error)["value"]["message"].splitlines()[0]) from None

    # ---- The page

    def open(self, url):
        self.ask("POST", "/url", {"url": url})

    def open_anew(self):
        self.open("about:blank")
        self.open(self.address + "/")

    def go(self, fragment):
        """Follows a link to another view of the page."""
        self.run("if (location.hash === arguments[0]) { location.hash = ''; } location.hash = arguments[0]", fragment)
        self.idle()

    def run(self, script, *words):
        return self.ask("POST", "/execute/sync", {"script": script, "args": list(words)})

    def command(self, name, **words):
        return self.ask("POST", "/goog/cdp/execute", {"cmd": name, "params": words})

    def width(self, pixels, height=800):
        if pixels is None:
            self.command("Emulation.clearDeviceMetricsOverride")
        else:
            size = {"width": pixels, "height": height, "deviceScaleFactor": 1, "mobile": False}
            self.command("Emulation.setDeviceMetricsOverride", **size)

    def picture(self, path):
        """Keeps a picture of the whole page, from its top down."""
        self.run(
            "window.scrollTo(0, 0); const it = document.activeElement; if (it.tagName === 'BUTTON') { it.blur(); }"
        )
        self.width(900)
        tall = self.run("return document.querySelector('main').getBoundingClientRect().bottom")
        self.width(900, max(int(tall), 500))
        pathlib.Path(path).write_bytes(base64.b64decode(self.ask("GET", "/screenshot")))
        self.width(None)

    # ---- What stands there

    def wait(self, holds, words, seconds=30):
        end = time.monotonic() + seconds
        while not holds():
            if time.monotonic() > end:
                raise AssertionError(words())
            time.sleep(0.05)

    def text(self, css):
        return self.run(
            "const it = document.querySelector(arguments[0]); return it === null ? '' : it.textContent", css
        )

    def until(self, css, words, seconds=30):
        """Waits until the words stand there, and the page has done what it was asked."""
        self.wait(
            lambda: words in self.text(".view:not([hidden]) h2" if css == "h2" else css),
            lambda: f"{css} does not say {words!r} but {self.text(css)!r}; refused: {self.text('#refused')!r}",
            seconds,
        )
        if css != "#refused":
            self.idle(seconds)

    def idle(self, seconds=30):
        """Waits until the page asks the desk nothing any more."""
        script = "return new Promise(done => setTimeout(() => done(!document.body.hasAttribute('data-busy')), 30))"
        self.wait(
            lambda: self.run(script),
            lambda: f"the page is busy: {self.text('#said')!r} {self.text('#refused')!r}",
            seconds,
        )

    def value(self, css):
        return self.run("return document.querySelector(arguments[0]).value", css)

    def hidden(self, css):
        return self.run("return document.querySelector(arguments[0]).hidden", css)

    def active(self):
        return self.run("return document.activeElement.id")

    def until_active(self, name):
        self.wait(lambda: self.active() == name, lambda: f"the focus is on {self.active()}, and not on {name}")

    # ---- Hands

    def element(self, css):
        return self.ask("POST", "/element", {"using": "css selector", "value": css})[ELEMENT]

    def click(self, css):
        self.run("document.querySelector(arguments[0]).scrollIntoView({block: 'center'})", css)
        self.ask("POST", f"/element/{self.element(css)}/click")
        self.idle()

    def press_button(self, css, words):
        """Clicks the first button below an element that has these words."""
        found = self.run(
            """const buttons = [...document.querySelector(arguments[0]).querySelectorAll('button')];
            return buttons.find(one => one.textContent === arguments[1])""",
            css,
            words,
        )
        self.run("arguments[0].scrollIntoView({block: 'center'})", found)
        self.ask("POST", f"/element/{found[ELEMENT]}/click")
        self.idle()

    def type(self, css, text):
        """Puts a text in place of what stands in a field."""
        element = self.element(css)
        self.ask("POST", f"/element/{element}/clear")
        self.ask("POST", f"/element/{element}/value", {"text": text})

    def file(self, css, path):
        self.ask("POST", f"/element/{self.element(css)}/value", {"text": str(pathlib.Path(path).resolve())})
        self.idle()

    def choose(self, css, value):
        self.run(
            """const it = document.querySelector(arguments[0]);
            it.value = arguments[1];
            it.dispatchEvent(new Event('input', {bubbles: true}));
            it.dispatchEvent(new Event('change'))""",
            css,
            value,
        )
        self.idle()

    def keys(self, *keys, held=None):
        """Presses keys one after another, wherever the focus is."""
        actions = [] if held is None else [{"type": "keyDown", "value": held}]
        for key in keys:
            actions += [{"type": "keyDown", "value": key}, {"type": "keyUp", "value": key}]
        actions += [] if held is None else [{"type": "keyUp", "value": held}]
        self.ask("POST", "/actions", {"actions": [{"type": "key", "id": "keyboard", "actions": actions}]})

    def tab_until(self, there, words, back):
        for _ in range(60):
            if there():
                return
            self.keys(TAB, held=SHIFT if back else None)
        raise AssertionError(f"no tab leads to {words}")

    def tab_to(self, name, back=False):
        self.tab_until(lambda: self.active() == name, name, back)

    def tab_to_button(self, start, back=False):
        """Goes to the control whose name begins so."""
        script = "const it = document.activeElement; return it.getAttribute('aria-label') || it.textContent"
        self.tab_until(lambda: self.run(script).startswith(start), start, back)

    # ---- What the browser knows

    def nameless(self):
        """The controls, groups, tables and headings to which the tree of the accessibility gives no name."""
        self.command("Accessibility.enable")
        nodes = self.command("Accessibility.getFullAXTree")["nodes"]
        shown = [node for node in nodes if not node["ignored"] and node["role"]["value"] in NAMED]
        return [node["role"]["value"] for node in shown if not node.get("name", {}).get("value")]

    def logged(self, kind):
        return self.ask("POST", "/se/log", {"type": kind})

    def faults(self):
        """What stands on the console, but for a refusal or a lost reply, which the browser writes there by itself."""
        self.messages += [one for one in self.logged("browser") if one["source"] != "network"]
        return [one["message"] for one in self.messages]

    def requested(self):
        """The addresses of all requests."""
        for one in self.logged("performance"):
            message = json.loads(one["message"])["message"]
            if message["method"] == "Network.requestWillBeSent":
                self.urls.append(message["params"]["request"]["url"])
        return self.urls
