"""The live page in a browser without a window."""

from __future__ import annotations

import importlib.util
import shutil
import time
from collections.abc import Callable
from typing import Any

from test_support import Case

# how long the page may take for anything, in seconds
PATIENCE = 20
# how soon an edit has to be seen, in milliseconds
SOON = 100


def is_at_hand() -> bool:
    """Whether selenium, chromium and chromedriver are installed."""
    return bool(importlib.util.find_spec("selenium") and shutil.which("chromium") and shutil.which("chromedriver"))


def browser() -> Any:
    from selenium import webdriver
    from selenium.webdriver.chrome.service import Service

    options = webdriver.ChromeOptions()
    for word in ("--headless=new", "--no-sandbox", "--disable-gpu", "--disable-dev-shm-usage", "--window-size=1500,950"):
        options.add_argument(word)
    options.binary_location = shutil.which("chromium") or ""
    options.set_capability("goog:loggingPrefs", {"browser": "ALL"})
    return webdriver.Chrome(service=Service(shutil.which("chromedriver")), options=options)


class Look:
    """A page in a browser."""

    def __init__(self, driver: Any, case: Case) -> None:
        self.driver, self.case = driver, case

    def text(self, name: str) -> str:
        return str(self.driver.execute_script("return document.getElementById(arguments[0]).textContent", name))

    def by(self, name: str) -> Any:
        from selenium.webdriver.common.by import By

        return self.driver.find_element(By.ID, name)

    def wait(self, what: str, is_so: Callable[[], bool]) -> None:
        """Checks whether something comes to be so."""
        end = time.monotonic() + PATIENCE
        while not (found := is_so()) and time.monotonic() < end:
            time.sleep(0.02)
        self.case.check_true(f"browser: {what}", found, (self.text("status"), self.text("lines")[:300]))

    def took(self) -> str | None:
        """How many milliseconds the last edit took until it was seen."""
        found = self.driver.execute_script("return document.getElementById('status').dataset.took")
        return None if found is None else str(found)

    def do(self, command: str) -> None:
        field = self.by("command")
        field.clear()
        field.send_keys(command + "\n")

    def open(self, message: str) -> None:
        script = "[...document.querySelectorAll('#messages button')].find(it => it.textContent.startsWith(arguments[0])).click()"
        self.driver.execute_script(script, message)

    def drag(self, old: int, new: int) -> None:
        """Drags a bit of the grid to another."""
        script = "const at = it => document.querySelector(`#grid [data-at='${it}']`), init = { bubbles: true, cancelable: true };"
        script += "at(arguments[0]).dispatchEvent(new DragEvent('dragstart', init));"
        script += "at(arguments[1]).dispatchEvent(new DragEvent('drop', init))"
        self.driver.execute_script(script, old, new)

    def start_of(self, signal: str) -> str:
        script = "return document.querySelector(`#signals [aria-label='start of ${arguments[0]}']`).value"
        return str(self.driver.execute_script(script, signal))

    def set_start(self, signal: str, start: str) -> None:
        script = "const it = document.querySelector(`#signals [aria-label='start of ${arguments[0]}']`); it.value = arguments[1];"
        self.driver.execute_script(script + "it.dispatchEvent(new Event('change'))", signal, start)

    def choose(self, name: str, value: str) -> None:
        script = "const it = document.getElementById(arguments[0]); it.value = arguments[1]; it.dispatchEvent(new Event('change'))"
        self.driver.execute_script(script, name, value)
