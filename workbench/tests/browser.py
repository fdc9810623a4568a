"""A browser for the tests: headless Chromium, spoken to by its driver in the protocol of the W3C, with the standard library alone."""
from __future__ import annotations

import base64
import json
import re
import shutil
import subprocess
import tempfile
import time
import unittest
import urllib.error
import urllib.request
from collections.abc import Callable
from typing import Any

DRIVER = shutil.which("chromedriver")
CHROMIUM = shutil.which("chromium")

needs_browser = unittest.skipUnless(DRIVER and CHROMIUM, "chromium and chromium-driver are not installed")
"""Marks a test that needs a browser. It is skipped where there is none."""

ELEMENT = "element-6066-11e4-a52e-4f735466cecf"
"""How the protocol names an element."""

PATIENCE = 300.0
"""How many seconds the page is waited for. An unproved program on a busy machine takes long."""

KEYS = {"Shift": "\ue008", "Control": "\ue009", "Enter": "\ue007", "Escape": "\ue00c", "Tab": "\ue004", "Delete": "\ue017",
        "ArrowLeft": "\ue012", "ArrowUp": "\ue013", "ArrowRight": "\ue014", "ArrowDown": "\ue015", "Home": "\ue011", "End": "\ue010"}

Json = Any


class Browser:
    """A window of the browser."""

    def __init__(self, width: int = 1400, height: int = 1000) -> None:
        self.profile = tempfile.mkdtemp(prefix="desk-browser-")
        self.driver = subprocess.Popen([DRIVER or "", "--port=0"], stdout=subprocess.PIPE, stderr=subprocess.DEVNULL, text=True)
        self.address = f"http://127.0.0.1:{self._port()}/session"
        words = ["--headless=new", "--no-sandbox", "--disable-gpu", "--touch-events=enabled", f"--user-data-dir={self.profile}",
                 f"--window-size={width},{height}"]
        options = {"binary": CHROMIUM, "args": words}
        wanted = {"capabilities": {"alwaysMatch": {"goog:chromeOptions": options, "goog:loggingPrefs": {"browser": "ALL"},
                                                   "timeouts": {"script": 120_000, "pageLoad": 120_000}}}}
        try:
            self.address += "/" + self._tell("", wanted)["sessionId"]
        except BaseException:
            self._end_driver()
            raise

    def close(self) -> None:
        """Ends the browser and its driver."""
        try:
            self._ask("DELETE", "")
        finally:
            self._end_driver()

    def _end_driver(self) -> None:
        """Ends the driver, and takes away what the browser has written."""
        self.driver.terminate()
        self.driver.wait()
        if self.driver.stdout:
            self.driver.stdout.close()
        shutil.rmtree(self.profile, ignore_errors=True)

    def _port(self) -> str:
        """The port on which the driver listens, which it prints."""
        for line in self.driver.stdout or ():
            if found := re.search(r"successfully on port (\d+)", line):
                return found[1]
        raise AssertionError("the driver of the browser has not started")

    def _ask(self, method: str, name: str, body: Json = None) -> Json:
        """What the driver answers."""
        data = None if body is None else json.dumps(body).encode()
        request = urllib.request.Request(self.address + name, data, {"Content-Type": "application/json"}, method=method)
        try:
            with urllib.request.urlopen(request, timeout=PATIENCE) as answer:
                return json.load(answer)["value"]
        except urllib.error.HTTPError as error:
            raise AssertionError(f"{name}: {json.load(error)['value']['message']}") from error

    def _tell(self, name: str, body: Json) -> Json:
        return self._ask("POST", name, body)

    def visit(self, address: str) -> None:
        """Opens a page that never says that it is ready."""
        self._tell("/url", {"url": address})

    def open(self, address: str) -> None:
        """Opens a page, and waits until it is ready."""
        self.visit(address)
        self.wait(lambda: self.run("return document.body.classList.contains('ready')"))

    def resize(self, width: int, height: int) -> None:
        """Gives the page a window whose inside is of this size."""
        self.command("Emulation.setDeviceMetricsOverride", width=width, height=height, deviceScaleFactor=1, mobile=False)

    def run(self, script: str, *arguments: Json) -> Json:
        """What a script in the page returns."""
        return self._tell("/execute/sync", {"script": script, "args": list(arguments)})

    def wait(self, holds: Callable[[], Json]) -> Json:
        """Waits until something holds, and gives it."""
        until = time.monotonic() + PATIENCE
        while not (found := holds()):
            if time.monotonic() > until:
                raise AssertionError("waited in vain: " + "; ".join(self.errors()))
            time.sleep(0.05)
        return found

    def find(self, selector: str) -> str:
        """The first element of a selector."""
        return self._tell("/element", {"using": "css selector", "value": selector})[ELEMENT]

    def text(self, selector: str) -> str:
        """The text of an element as it stands, also where it is hidden."""
        return self.run("return document.querySelector(arguments[0]).textContent", selector)

    def texts(self, selector: str) -> list[str]:
        """The texts of all elements of a selector."""
        return self.run("return [...document.querySelectorAll(arguments[0])].map((found) => found.textContent)", selector)

    def click(self, selector: str) -> None:
        """Clicks an element."""
        self._tell(f"/element/{self.find(selector)}/click", {})

    def type(self, selector: str, text: str) -> None:
        """Writes a text into a field, over what stands in it."""
        element = self.find(selector)
        self._tell(f"/element/{element}/clear", {})
        self._tell(f"/element/{element}/value", {"text": text})

    def keys(self, *names: str) -> None:
        """Presses keys one after the other. `Shift+ArrowRight` holds the first while it presses the second."""
        actions = []
        for name in names:
            pressed = [KEYS.get(part, part) for part in (name.split("+") if len(name) > 1 else name)]
            actions += [{"type": "keyDown", "value": key} for key in pressed]
            actions += [{"type": "keyUp", "value": key} for key in reversed(pressed)]
        self._tell("/actions", {"actions": [{"type": "key", "id": "keys", "actions": actions}]})

    def drag(self, selector: str, right: int, down: int = 0) -> None:
        """Drags an element to the right and down, or to the left and up."""
        self.hold(selector, right, down)
        self.let_go()

    def hold(self, selector: str, right: int, down: int = 0) -> None:
        """Takes an element by the mouse and moves it to the right and down, or to the left and up, and holds it there."""
        moves = [{"type": "pointerMove", "duration": 0, "x": 0, "y": 0, "origin": {ELEMENT: self.find(selector)}}]
        moves += [{"type": "pointerDown", "button": 0}]
        for x, y in ((right // 2, down // 2), (right - right // 2, down - down // 2)):
            moves += [{"type": "pointerMove", "duration": 40, "x": x, "y": y, "origin": "pointer"}]
        self._pointer(moves)

    def let_go(self) -> None:
        """Lets go of the mouse."""
        self._pointer([{"type": "pointerUp", "button": 0}])

    def point(self, selector: str) -> None:
        """Moves the mouse over an element."""
        self._pointer([{"type": "pointerMove", "duration": 0, "x": 0, "y": 0, "origin": {ELEMENT: self.find(selector)}}])

    def tap(self, selector: str) -> None:
        """Touches an element with a finger."""
        touch = [{"type": "pointerMove", "duration": 0, "x": 0, "y": 0, "origin": {ELEMENT: self.find(selector)}},
                 {"type": "pointerDown", "button": 0}, {"type": "pointerUp", "button": 0}]
        self._tell("/actions", {"actions": [{"type": "pointer", "id": "finger", "parameters": {"pointerType": "touch"}, "actions": touch}]})

    def pinch(self, selector: str, apart: int, until: int) -> None:
        """Puts two fingers on an element, so many pixels apart, and moves them in four steps until they are so many apart."""
        element, fingers = self.find(selector), []
        for name, side in (("one", -1), ("other", 1)):
            moves = [{"type": "pointerMove", "duration": 0, "x": side * (apart // 2), "y": 0, "origin": {ELEMENT: element}},
                     {"type": "pointerDown", "button": 0}]
            moves += [{"type": "pointerMove", "duration": 60, "x": side * ((until - apart) // 8), "y": 0, "origin": "pointer"}] * 4
            fingers.append({"type": "pointer", "id": name, "parameters": {"pointerType": "touch"},
                            "actions": [*moves, {"type": "pointerUp", "button": 0}]})
        self._tell("/actions", {"actions": fingers})

    def _pointer(self, actions: list[Json]) -> None:
        mouse = {"type": "pointer", "id": "mouse", "parameters": {"pointerType": "mouse"}, "actions": actions}
        self._tell("/actions", {"actions": [mouse]})

    def printed(self, width: float, height: float) -> bytes:
        """The page as it is printed on paper of this size, in centimetres."""
        sized = {"paperWidth": width / 2.54, "paperHeight": height / 2.54, "landscape": True, "preferCSSPageSize": False}
        return base64.b64decode(self.command("Page.printToPDF", **sized)["data"])

    def command(self, name: str, **words: Json) -> Json:
        """What the browser answers to a command of its own protocol."""
        return self._tell("/goog/cdp/execute", {"cmd": name, "params": words})

    def picture(self) -> bytes:
        """What is seen, as PNG."""
        return base64.b64decode(self._ask("GET", "/screenshot"))

    def errors(self) -> list[str]:
        """What the page has complained of since this was asked last."""
        return [entry["message"] for entry in self._tell("/se/log", {"type": "browser"}) if entry["level"] in ("SEVERE", "WARNING")]
