"""A browser that is driven by chromedriver: no more of it than tests/web.py needs."""

import base64
import json
import re
import subprocess
import time
import urllib.error
import urllib.request

ELEMENT = "element-6066-11e4-a52e-4f735466cecf"
WORDS = ["--headless=new", "--no-sandbox", "--disable-gpu", "--allow-file-access-from-files"]


class Browser:
    """One window. The browser ends with the `with` in which it was begun."""

    def __enter__(self):
        self.driver = subprocess.Popen(["chromedriver", "--port=0"], stdout=subprocess.PIPE, text=True)
        line = next(it for it in self.driver.stdout if "started successfully on port" in it)
        port = re.search(r"port (\d+)", line)[1]
        self.address = f"http://127.0.0.1:{port}"
        wanted = {"browserName": "chrome", "goog:chromeOptions": {"args": WORDS}}
        made = self.ask("POST", "/session", {"capabilities": {"alwaysMatch": wanted}})
        self.session = f"/session/{made['sessionId']}"
        return self

    def __exit__(self, *_):
        try:
            self.ask("DELETE", self.session)
        finally:
            self.driver.terminate()
            self.driver.wait()

    def ask(self, method, path, body=None):
        data = None if body is None else json.dumps(body).encode()
        request = urllib.request.Request(self.address + path, data, {"Content-Type": "application/json"}, method=method)
        try:
            with urllib.request.urlopen(request, timeout=120) as answer:
                return json.load(answer)["value"]
        except urllib.error.HTTPError as error:
            raise RuntimeError(f"{json.load(error)['value']['message'].splitlines()[0]}: {body}") from None

    def open(self, address):
        # another page first, since an address with another `#` alone is the same page
        self.ask("POST", f"{self.session}/url", {"url": "about:blank"})
        self.ask("POST", f"{self.session}/url", {"url": address})

    def before(self, script):
        """Runs a script in each page before its own."""
        self.devtools("Page.addScriptToEvaluateOnNewDocument", {"source": script})

    def do(self, script, *arguments):
        """What a script's `return` gives."""
        return self.ask("POST", f"{self.session}/execute/sync", {"script": script, "args": [*arguments]})

    def text(self, selector):
        texts = "return [...document.querySelectorAll(arguments[0])].map((it) => it.textContent).join('|')"
        return self.do(texts, selector)

    def keys(self, selector, text):
        """Types into an element, behind what is there."""
        found = self.ask("POST", f"{self.session}/element", {"using": "css selector", "value": selector})
        self.ask("POST", f"{self.session}/element/{found[ELEMENT]}/value", {"text": text})

    def press(self, *keys):
        """Presses keys together, wherever the focus is."""
        down = [{"type": "keyDown", "value": it} for it in keys]
        up = [{"type": "keyUp", "value": it} for it in reversed(keys)]
        actions = [{"type": "key", "id": "keyboard", "actions": down + up}]
        self.ask("POST", f"{self.session}/actions", {"actions": actions})

    def point(self, x, y):
        """Moves the mouse to a point of the window."""
        move = {"type": "pointerMove", "duration": 0, "x": int(x), "y": int(y), "origin": "viewport"}
        self.ask("POST", f"{self.session}/actions", {"actions": [{"type": "pointer", "id": "mouse", "actions": [move]}]})

    def wait(self, script, seconds=20):
        """Waits until a script's `return` gives something, and gives that."""
        end = time.monotonic() + seconds
        while time.monotonic() < end:
            found = self.do(script)
            if found:
                return found
            time.sleep(0.05)
        return None

    def look(self, width, height, scheme):
        """A window of another size, by daylight or in the dark."""
        size = {"width": width, "height": height, "deviceScaleFactor": 1, "mobile": False}
        self.devtools("Emulation.setDeviceMetricsOverride", size)
        wish = [{"name": "prefers-color-scheme", "value": scheme}]
        self.devtools("Emulation.setEmulatedMedia", {"features": wish})

    def devtools(self, command, how):
        return self.ask("POST", f"{self.session}/goog/cdp/execute", {"cmd": command, "params": how})

    def picture(self, path):
        with open(path, "wb") as file:
            file.write(base64.b64decode(self.ask("GET", f"{self.session}/screenshot")))
