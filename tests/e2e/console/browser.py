"""Chromium by selenium, logged in to a env."""
import base64
import json
import os
import time
from pathlib import Path
from typing import Any

from selenium import webdriver
from selenium.webdriver.chrome.options import Options
from selenium.webdriver.chrome.service import Service
from selenium.webdriver.common.by import By

from harness.processes import wait_for

from .environment import HOST, Environment


class Browser:
    def __init__(self, env: Environment, who: str = "anna"):
        options = Options()
        options.binary_location = "/usr/bin/chromium"
        for it in ("--headless=new", "--no-sandbox", "--disable-dev-shm-usage"):
            options.add_argument(it)
        options.set_capability("acceptInsecureCerts", True)
        options.set_capability("goog:loggingPrefs", {"browser": "ALL"})
        self.env, self.who = env, who
        self.driver = webdriver.Chrome(service=Service("/usr/bin/chromedriver"), options=options)
        self.driver.set_window_size(1440, 900)

    def open(self, place: str) -> None:
        """A view, logged in."""
        self.driver.get(f"https://{self.who}:secret@{HOST}:{self.env.port}/page/{place}")

    def go(self, place: str) -> None:
        """Another view of the page that is open."""
        self.js("location.hash = arguments[0]", place)

    def js(self, script: str, *values: Any) -> Any:
        return self.driver.execute_script(script, *values)

    def text(self, selector: str = "body") -> str:
        return str(
            self.js("return document.querySelector(arguments[0])?.innerText ?? ''", selector)
        )

    def until(self, words: str, selector: str = "body", seconds: float = 30) -> float:
        """Waits until a place has these words; when that was."""
        got = wait_for(lambda: words in self.text(selector) and time.time(), seconds)
        assert got, f"{words!r} never came; {selector} says {self.text(selector)[:900]!r}"
        return float(got)

    def until_not(self, words: str, selector: str = "body", seconds: float = 30) -> None:
        """Waits until a place is there that doesn't have these words."""
        gone = lambda: (text := self.text(selector)) and words not in text
        assert wait_for(gone, seconds), f"{words!r} stays in {selector}"

    def click(self, selector: str) -> None:
        self.driver.find_element(By.CSS_SELECTOR, selector).click()

    def type(self, selector: str, words: str) -> None:
        control = self.driver.find_element(By.CSS_SELECTOR, selector)
        control.clear()
        control.send_keys(words)

    def wide(self, width: int, height: int = 900) -> None:
        """The page is so wide, narrower than a window can be too."""
        values = {"width": width, "height": height, "deviceScaleFactor": 1, "mobile": False}
        self.driver.execute_cdp_cmd("Emulation.setDeviceMetricsOverride", values)

    def hidden(self, handle: str) -> bool:
        self.driver.switch_to.window(handle)
        return bool(self.js("return document.hidden"))

    def picture(self, name: str) -> None:
        """Where PICTURES names a folder."""
        if folder := os.environ.get("PICTURES"):
            self.driver.save_screenshot(f"{folder}/{name}.png")

    def whole_picture(self, name: str) -> None:
        """Of the whole page, however long, where PICTURES names a folder. A bar to scroll by would cut its right end off."""
        self.driver.execute_cdp_cmd("Emulation.setScrollbarsHidden", {"hidden": True})
        told = self.driver.execute_cdp_cmd(
            "Page.captureScreenshot", {"captureBeyondViewport": True, "format": "png"}
        )
        Path(os.environ["PICTURES"], f"{name}.png").write_bytes(base64.b64decode(told["data"]))

    def faults(self) -> list[str]:
        """What the browser's console says, but for answers that a test causes."""
        lines = [json.dumps(it) for it in self.driver.get_log("browser")]
        return [it for it in lines if "status of 50" not in it and "status of 404" not in it]

    def asked(self) -> list[str]:
        """What the page asked for since it was opened."""
        found = self.js("return performance.getEntriesByType('resource').map((it) => it.name)")
        return [it.split(f":{self.env.port}")[-1] for it in found]

    def end(self) -> None:
        self.driver.quit()
