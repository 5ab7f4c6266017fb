"""A headless Chromium that a test drives over its debugging pipe."""
from __future__ import annotations

import base64
import fcntl
import json
import os
import re
import select
import shutil
import subprocess
import tempfile
from typing import Any, Iterable, Iterator, List, Optional, Set, Tuple

import pytest

from served import LASTING, ends_with_us, wait_until

CHROMIUM = next(
    filter(None, map(shutil.which, ("chromium", "chromium-browser", "google-chrome"))), None
)

LONGEST = 120
# Does something as a frame begins, and waits until the next one has begun.
WORK = ("ScriptDuration", "RecalcStyleDuration", "LayoutDuration")
FRAMES = """new Promise(done => requestAnimationFrame(() => {{
  {first}; requestAnimationFrame(() => setTimeout(done));
}}))"""


def wants_a_browser() -> None:
    """Skips the test where no Chromium is there."""
    if CHROMIUM is None:
        pytest.skip("there is no chromium")


class Browser:
    """A Chromium with a home of its own, which lasts until it is ended, and takes any certificate."""

    def __init__(self, folder: str):
        home = tempfile.mkdtemp(dir=folder)
        head = [str(CHROMIUM), "--headless=new", "--no-sandbox", "--disable-gpu", "--hide-scrollbars"]
        to_read, self.commands = high_pipe()
        self.answers, to_write = high_pipe()

        tied = ends_with_us() or (lambda: None)

        def hand_over() -> None:
            tied()
            os.dup2(to_read, 3)
            os.dup2(to_write, 4)

        self.process = subprocess.Popen(
            [*head, "--ignore-certificate-errors", f"--user-data-dir={home}", "--remote-debugging-pipe"],
            stdin=subprocess.DEVNULL,
            stdout=subprocess.DEVNULL,
            stderr=subprocess.DEVNULL,
            preexec_fn=hand_over,
            close_fds=False,
        )
        LASTING.append(self.process)
        os.close(to_read)
        os.close(to_write)
        self.sent, self.rest = 0, b""

    def do(self, method: str, session: Optional[str] = None, **parameters: Any) -> Any:
        """What a command of the DevTools protocol comes to."""
        self.sent += 1
        asked = {"id": self.sent, "method": method, "params": parameters}
        if session:
            asked["sessionId"] = session
        os.write(self.commands, json.dumps(asked).encode() + b"\0")
        while True:
            said = self._next()
            if said.get("id") == self.sent:
                if "error" in said:
                    raise OSError(f"{method}: {said['error']['message']}")
                return said["result"]

    def _next(self) -> Any:
        while b"\0" not in self.rest:
            if not select.select([self.answers], [], [], LONGEST)[0]:
                raise OSError(f"Chromium says nothing for {LONGEST} s")
            got = os.read(self.answers, 1 << 20)
            if not got:
                raise OSError("Chromium has ended")
            self.rest += got
        said, _, self.rest = self.rest.partition(b"\0")
        return json.loads(said)

    def visit(self) -> "Visit":
        return Visit(self)

    def end(self) -> None:
        self.process.kill()
        self.process.wait()


class Visit:
    """Pages that share cookies, logins and what they keep, and nothing with those of another visit."""

    def __init__(self, browser: Browser):
        self.browser = browser
        self.context = browser.do("Target.createBrowserContext")["browserContextId"]

    def open(self, address: str, wide: int = 1000, high: int = 900, before: str = "") -> "Page":
        """A new page of this size that looks at an address, and runs a script before its own."""
        target = self.browser.do("Target.createTarget", url="about:blank", browserContextId=self.context)["targetId"]
        session = self.browser.do("Target.attachToTarget", targetId=target, flatten=True)["sessionId"]
        page = Page(self.browser, target, session)
        page.resize(wide, high)
        # (without this the script is taken, and never run)
        page.do("Page.enable")
        page.do("Page.addScriptToEvaluateOnNewDocument", source=before)
        page.go(address)
        return page

    def end(self) -> None:
        """Closes all its pages."""
        self.browser.do("Target.disposeBrowserContext", browserContextId=self.context)


class Page:
    """One page of a browser."""

    def __init__(self, browser: Browser, target: str, session: str):
        self.browser, self.target, self.session = browser, target, session
        self.do("Emulation.setFocusEmulationEnabled", enabled=True)

    def do(self, method: str, **parameters: Any) -> Any:
        return self.browser.do(method, self.session, **parameters)

    def go(self, address: str) -> None:
        self.ask("void (window.isLeft = true)")
        self.do("Page.navigate", url=address)
        there = "!window.isLeft && location.href !== 'about:blank' && document.readyState"
        wait_until(f"{address} is there", lambda: bool(self.ask(there) == "complete"))

    def resize(self, wide: int, high: int) -> None:
        size = {"width": wide, "height": high, "deviceScaleFactor": 1, "mobile": False}
        self.do("Emulation.setDeviceMetricsOverride", **size)

    def ask(self, expression: str) -> Any:
        """The value of an expression of the page's script."""
        said = self.do(
            "Runtime.evaluate", expression=expression, returnByValue=True, awaitPromise=True
        )
        if "exceptionDetails" in said:
            raise OSError(f"{expression}: {said['result'].get('description')}")
        return said["result"].get("value")

    def cost(self, expression: str) -> float:
        """How long the page's thread works at an expression, and at the styles and the layout of
        the frame that shows it: milliseconds of processor time, so what else the machine does
        meanwhile isn't in it."""
        self.ask(FRAMES.format(first=""))
        before = self._spent()
        self.ask(FRAMES.format(first=expression))
        return self._spent() - before

    def _spent(self) -> float:
        self.do("Performance.enable", timeDomain="threadTicks")
        metrics = self.do("Performance.getMetrics")["metrics"]
        return 1000 * float(sum(it["value"] for it in metrics if it["name"] in WORK))

    def key(self, name: str, number: int, text: str = "") -> None:
        """Presses a key of the keyboard, with the text that it types."""
        pressed = {"key": name, "code": name, "windowsVirtualKeyCode": number}
        self.do("Input.dispatchKeyEvent", type="keyDown" if text else "rawKeyDown", text=text, **pressed)
        self.do("Input.dispatchKeyEvent", type="keyUp", **pressed)

    def click_at(self, x: float, y: float) -> None:
        """Clicks with the mouse."""
        for kind in ("mousePressed", "mouseReleased"):
            self.do("Input.dispatchMouseEvent", type=kind, x=x, y=y, button="left", clickCount=1)

    def set_scheme(self, scheme: str) -> None:
        """Lets the page be light or dark."""
        media = [{"name": "prefers-color-scheme", "value": scheme}]
        self.do("Emulation.setEmulatedMedia", features=media)

    def draw(self, file: str) -> None:
        """Writes what is seen of the page into a file."""
        with open(file, "wb") as drawn:
            drawn.write(base64.b64decode(self.do("Page.captureScreenshot", format="png")["data"]))

    def accessible(self) -> Set[Tuple[str, str]]:
        """The roles and names that a reader of the screen is told."""
        tree = self.do("Accessibility.getFullAXTree")["nodes"]
        return {(it["role"]["value"], it.get("name", {}).get("value", "")) for it in tree if "role" in it}

    def close(self) -> None:
        self.browser.do("Target.closeTarget", targetId=self.target)

    def poor_texts(self) -> Set[str]:
        """The texts of the page, or of what is open over it, whose contrast is below 4.5 in light or dark, as WCAG
        counts it."""
        found: Set[str] = set()
        for scheme in ("light", "dark"):
            self.set_scheme(scheme)
            texts = self.ask(TEXTS)
            assert len(texts) > 3, "there are hardly any texts"
            found |= {f"{name} in {scheme}" for name, colour, grounds in texts
                      if contrast(parts(colour), ground_of(grounds)) < 4.5}
        return found


def high_pipe() -> List[int]:
    """A pipe whose ends are none of the numbers that Chromium is handed."""
    ends = os.pipe()
    moved = [fcntl.fcntl(end, fcntl.F_DUPFD_CLOEXEC, 10) for end in ends]
    for end in ends:
        os.close(end)
    return moved


# ---- contrast

# The texts that are seen, with their colour and the grounds that they stand on, the nearest first.
TEXTS = """(() => {
  const grounds = it => it
    ? [getComputedStyle(it).backgroundColor, ...grounds(it.parentElement)] : [];
  const top = document.querySelector("dialog:modal") || document.body;
  const seen = [...top.querySelectorAll("*")].filter(it => it.checkVisibility());
  const texts = seen
    .filter(it => [...it.childNodes].some(node => node.nodeType === 3 && node.data.trim()))
    .map(it => [it.className || it.tagName, getComputedStyle(it).color, grounds(it)]);
  const fields = seen.filter(it => it.placeholder && !it.value).map(
    it => ["placeholder", getComputedStyle(it, "::placeholder").color, grounds(it)]);
  return [...texts, ...fields];
})()"""


def parts(colour: str) -> List[float]:
    """A colour's red, green, blue, and how much it covers."""
    found = [float(it) for it in re.findall(r"[\d.]+", colour)]
    return [*found[:3], found[3] if len(found) > 3 else 1.0]


def ground_of(grounds: Iterable[str]) -> List[float]:
    """What is seen where these colours lie over each other, the last at the bottom."""
    mixed = [255.0, 255.0, 255.0]
    for ground in reversed(list(grounds)):
        *colour, cover = parts(ground)
        mixed = [cover * new + (1 - cover) * old for new, old in zip(colour, mixed)]
    return mixed


def contrast(one: List[float], other: List[float]) -> float:
    dark, light = sorted(map(luminance, (one, other)))
    return (light + 0.05) / (dark + 0.05)


def luminance(colour: List[float]) -> float:
    shares = [it / 255 for it in colour[:3]]
    linear = [it / 12.92 if it <= 0.03928 else float(((it + 0.055) / 1.055) ** 2.4) for it in shares]
    return 0.2126 * linear[0] + 0.7152 * linear[1] + 0.0722 * linear[2]


# ---- fixtures, which a file of tests or a conftest imports


@pytest.fixture(name="browser", scope="session")
def browser_fixture(tmp_path_factory: pytest.TempPathFactory) -> Iterator[Browser]:
    """A Chromium for all tests of a process."""
    wants_a_browser()
    started = Browser(str(tmp_path_factory.mktemp("browser")))
    yield started
    started.end()


@pytest.fixture(name="visit")
def visit_fixture(browser: Browser) -> Iterator[Visit]:
    """Pages of a browser that keeps no login."""
    begun = browser.visit()
    yield begun
    begun.end()
