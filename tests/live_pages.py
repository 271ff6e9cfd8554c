"""Running live pages, and the pages' side of the talk; they need aiohttp."""

from __future__ import annotations

import contextlib
import importlib.util
import os
import re
import subprocess
import sys
from collections.abc import AsyncIterator, Callable, Iterator
from typing import Any

from tool_runs import PATIENCE, PYTHONS, path_of, ran, written

HAS_AIOHTTP = importlib.util.find_spec("aiohttp") is not None
if HAS_AIOHTTP:
    import aiohttp


def run_by_python_with(package: str) -> None:
    """Runs the file that was started by a Python that has a package, if this one hasn't and another does."""
    if importlib.util.find_spec(package):
        return
    for python in PYTHONS:
        if os.access(python, os.X_OK) and ran([python, "-c", f"import {package}"]).status == 0:
            os.execv(python, [python, *sys.argv])


class Refusal(Exception):
    """A request that was refused."""


class Talk:
    """A page's side of the talk."""

    def __init__(self, socket: aiohttp.ClientWebSocketResponse) -> None:
        self.socket, self.asked = socket, 0
        self.messages: list[dict[str, Any]] = []

    async def next(self) -> dict[str, Any]:
        message: dict[str, Any] = await self.socket.receive_json(timeout=PATIENCE)
        return message

    async def wish(self, want: str, **words: Any) -> Any:
        self.asked += 1
        await self.socket.send_json({"id": self.asked, "want": want, **words})
        while (message := await self.next()).get("id") != self.asked:
            self.messages.append(message)
        if "refused" in message:
            raise Refusal(message["refused"])
        return message["answer"]

    async def until(self, found: Callable[[dict[str, Any]], bool]) -> dict[str, Any]:
        """The first push, of those to come, of which this holds."""
        while not found(message := await self.next()):
            pass
        return message


class Page:
    """A running candesk-page."""

    def __init__(self, *words: str, log: Any = subprocess.DEVNULL) -> None:
        words = (path_of("candesk-page"), *words)
        self.running = subprocess.Popen(words, stdin=log, stdout=subprocess.PIPE, stderr=subprocess.PIPE)
        assert self.running.stdout and self.running.stderr
        self.address = self.running.stdout.readline().decode().strip()
        found = re.fullmatch(r"(http://127\.0\.0\.1:\d+)/\?token=(.+)", self.address)
        if not found:
            raise AssertionError(self.running.stderr.read())
        self.base, self.token = found.groups()

    def close(self) -> None:
        self.running.kill()
        self.running.wait()

    @contextlib.asynccontextmanager
    async def talk(self) -> AsyncIterator[Talk]:
        async with aiohttp.ClientSession(cookie_jar=aiohttp.CookieJar(unsafe=True)) as web:
            async with web.get(self.address):
                pass
            async with web.ws_connect(self.base + "/talk", headers={"Origin": self.base}) as socket:
                yield Talk(socket)


@contextlib.contextmanager
def page(*words: str, log: Any = subprocess.DEVNULL) -> Iterator[Page]:
    it = Page(*words, log=log)
    try:
        yield it
    finally:
        it.close()


def many_messages(folder: str) -> tuple[str, subprocess.Popen[bytes]]:
    """A database of 1,000 messages, and a process that writes 5,000 lines for them a second."""
    signals = ' SG_ A : 0|16@1+ (0.5,1) [0|0] "V" E\n SG_ B : 16|16@1- (1,0) [0|0] "" E\n'
    path = written(folder, "many.dbc", "".join(f"BO_ {at} M{at}: 8 E\n{signals}" for at in range(1000)).encode())
    feeding = "import sys, time\nfor at in range(300000):\n    sys.stdout.write('(%d.%06d) can0 %03X#0102030405060708\\n' % "
    feeding += "(at // 5000, at % 5000 * 200, at % 1000))\n    if at % 50 == 0: sys.stdout.flush(); time.sleep(0.01)\n"
    return path, subprocess.Popen([sys.executable, "-c", feeding], stdout=subprocess.PIPE)
