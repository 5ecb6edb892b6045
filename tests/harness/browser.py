"""Chromium, driven by its driver's HTTP. Not run by itself."""
import base64
import contextlib
import json
import os
import re
import signal
import subprocess
import time

from harness import ROOT, http_client
from harness.processes import eventually, free_port, listens, members, terminate, wait_for

# how long the page may take to show something, in seconds
PATIENCE = 90
PICTURES = ROOT / "docs/img"


class Browser:
    """Chromium, driven by its driver's HTTP."""

    def __init__(self):
        self.port, self.path = free_port(), ""
        self.child = subprocess.Popen(
            ["chromedriver", f"--port={self.port}"],
            stdout=subprocess.DEVNULL,
            stderr=subprocess.DEVNULL,
            start_new_session=True,
        )
        eventually("chromedriver", lambda: listens(self.port), child=self.child)
        words = [
            "--headless=new",
            "--no-sandbox",
            "--disable-dev-shm-usage",
            "--hide-scrollbars",
            "--ignore-certificate-errors",
        ]
        wanted = {
            "browserName": "chrome",
            "acceptInsecureCerts": True,
            "goog:chromeOptions": {"args": words},
            "goog:loggingPrefs": {"browser": "ALL"},
        }
        self.path = f"/session/{self.ask('POST', '/session', {'capabilities': {'alwaysMatch': wanted}})['sessionId']}"
        self.size(1100, 900)

    def ask(self, method, path, body=None):
        kind = {"Content-Type": "application/json"}
        sent = None if body is None else json.dumps(body)
        reply = http_client.ask(method, self.path + path, sent, kind, port=self.port)
        value = reply.json()["value"]
        assert not (
            isinstance(value, dict) and "error" in value
        ), f"{method} {path}: {value['error']}: {value['message'].splitlines()[0]}"
        return value

    def end(self):
        """Ends the browser, and waits until none of its processes is left."""
        try:
            self.ask("DELETE", "")
        finally:
            terminate(self.child)
            wait_for(lambda: not members(self.child.pid), 10)
            for it in members(self.child.pid):
                with contextlib.suppress(ProcessLookupError):
                    os.kill(it, signal.SIGKILL)

    def go(self, address):
        self.ask("POST", "/url", {"url": address})

    def js(self, script, *values):
        return self.ask("POST", "/execute/sync", {"script": script, "args": values})

    def devtools(self, command, **values):
        return self.ask("POST", "/goog/cdp/execute", {"cmd": command, "params": values})

    def size(self, width, height):
        self.devtools(
            "Emulation.setDeviceMetricsOverride",
            width=width,
            height=height,
            deviceScaleFactor=1,
            mobile=False,
        )

    def scheme(self, word):
        self.devtools(
            "Emulation.setEmulatedMedia", features=[{"name": "prefers-color-scheme", "value": word}]
        )

    def picture(self, name, height, width=1000):
        self.size(width, height)
        time.sleep(0.3)
        PICTURES.mkdir(parents=True, exist_ok=True)
        (PICTURES / name).write_bytes(base64.b64decode(self.ask("GET", "/screenshot")))
        self.size(1100, 900)

    def until(self, script, *values, seconds=PATIENCE):
        """Waits until a script answers something that is true, and gives it."""
        got = wait_for(lambda: self.js(f"return {script}", *values), seconds, 0.1)
        words = "" if got else self.text("main")[:600]
        assert got, f"{script} {values} never came; the page says: {words!r}"
        return got

    def find(self, selector):
        self.until("document.querySelector(arguments[0])", selector)
        return next(
            iter(
                self.ask("POST", "/element", {"using": "css selector", "value": selector}).values()
            )
        )

    def text(self, selector):
        return self.js("return document.querySelector(arguments[0])?.innerText ?? ''", selector)

    def texts(self, selector):
        return self.js(
            "return [...document.querySelectorAll(arguments[0])].map((it) => it.innerText)",
            selector,
        )

    def click(self, selector):
        self.ask("POST", f"/element/{self.find(selector)}/click", {})

    def open(self, selector):
        """Opens what is folded up."""
        self.find(selector)
        self.js("document.querySelector(arguments[0]).open = true", selector)

    def type(self, selector, text):
        found = self.find(selector)
        if self.js(
            "return arguments[0].type !== 'file'", {"element-6066-11e4-a52e-4f735466cecf": found}
        ):
            self.ask("POST", f"/element/{found}/clear", {})
        self.ask("POST", f"/element/{found}/value", {"text": text})

    def press(self, *keys):
        steps = [
            step
            for key in keys
            for step in ({"type": "keyDown", "value": key}, {"type": "keyUp", "value": key})
        ]
        self.ask("POST", "/actions", {"actions": [{"type": "key", "id": "keys", "actions": steps}]})

    def faults(self):
        """What the browser complains of, but for the refusals that the page shows itself."""
        return [
            it["message"]
            for it in self.ask("POST", "/se/log", {"type": "browser"})
            if it["source"] != "network" and it["level"] != "INFO"
        ]

    def asked(self, part=r"/(rest|desk)/v1"):
        """When each request of the page began and ended."""
        entries = self.js(
            "return performance.getEntriesByType('resource').map((it) => [it.name, it.startTime, "
            "it.responseEnd])"
        )
        return [(name, began, end) for name, began, end in entries if re.search(part, name)]

    def forget(self):
        self.js("performance.clearResourceTimings()")
