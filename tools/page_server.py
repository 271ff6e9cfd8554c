"""The server of a live page: one page on the loopback, and a WebSocket for its requests.

A client needs the token: it is in the address that is opened first, and from then on in a cookie. Host and Origin are checked, so
that no other page can use a browser that has the cookie.
"""

from __future__ import annotations

import asyncio
import contextlib
import hmac
import json
import secrets
import weakref
from collections.abc import Awaitable, Callable
from typing import Any

from aiohttp import WSMsgType, web

import candesk_tools as tools
from page_desk import Counts, Desk, LiveCounts, LiveLog, Refused

LOOPBACK = "127.0.0.1"
TOKEN_BYTES = 24
# the most bytes of a request
MAX_BYTES = 1 << 17
# in seconds: how often a live log and its counts are shown, and how long the last page may be closed before the server ends
LOG_INTERVAL = 0.1
COUNTS_INTERVAL = 1
GRACE = 5
POLICY = (
    "default-src 'none'; script-src 'nonce-{0}'; style-src 'nonce-{0}'; connect-src 'self'; base-uri 'none'; form-action 'none';"
    " frame-ancestors 'none'"
)
HEADERS = {
    "Cache-Control": "no-store", "X-Content-Type-Options": "nosniff", "Referrer-Policy": "no-referrer",
    "Cross-Origin-Opener-Policy": "same-origin", "X-Frame-Options": "DENY",
}


class Server:
    """A page on a desk, and its viewers."""

    def __init__(self, desk: Desk, page: str, differences: Callable[[], list[str]]) -> None:
        self.desk, self.page, self.differences = desk, page, differences
        self.token = secrets.token_urlsafe(TOKEN_BYTES)
        self.hosts: set[str] = set()
        self.cookie = ""
        # the open pages, and those that are hidden
        self.viewers: set[web.WebSocketResponse] = set()
        self.hidden: set[web.WebSocketResponse] = set()
        # the edition of the list of messages that each page has
        self.editions: weakref.WeakKeyDictionary[web.WebSocketResponse, int] = weakref.WeakKeyDictionary()
        self.counts: Counts = Counts()
        self.counted_version = -1
        self.later: asyncio.Task[None] | None = None
        self.ended = asyncio.Event()
        self.requests: dict[str, Callable[[dict[str, Any]], Any]] = {
            "state": lambda _: desk.state(),
            "message": lambda it: desk.message(int(it["index"])),
            "lines": lambda it: desk.lines(int(it["first"]), int(it["count"])),
            "remedies": lambda _: desk.remedies(),
            "values": lambda it: self.values(int(it["number"]), bool(it.get("all"))),
            "differences": lambda _: self.differences(),
            "text": lambda _: desk.text.decode("latin-1"),
            "layout": lambda it: tools.shown(b"\n".join(desk.session.ask(b"show layout %d" % int(it["index"]))[1])),
        }
        self.edits: dict[str, Callable[[dict[str, Any]], None]] = {
            "edit": lambda it: desk.edit(str(it["command"])),
            "move": lambda it: desk.move(int(it["index"]), str(it["signal"]), int(it["start"]), int(it["length"])),
            "undo": lambda _: desk.undo(),
            "redo": lambda _: desk.redo(),
            "save": lambda _: desk.save(),
            "filter": lambda it: desk.set_filter(str(it["message"]), str(it["signal"])),
        }

    def values(self, number: int, is_all: bool) -> list[str]:
        """The last object of a message, if there is one, or all that are kept."""
        frames = self.counts.found.get(number)
        return [it.decode() for it in (list(frames.recent) if is_all else [frames.recent[-1]])] if frames else []

    # ---- access

    def is_here(self, request: web.Request) -> bool:
        """Whether a request is for this page: its Host is the loopback, and its Origin, if it has one, is the page."""
        origin = request.headers.get("Origin")
        return request.headers.get("Host") in self.hosts and (origin is None or origin in {f"http://{it}" for it in self.hosts})

    def knows(self, word: str | None) -> bool:
        return word is not None and hmac.compare_digest(word.encode(), self.token.encode())

    async def open(self, request: web.Request) -> web.StreamResponse:
        """The page. The address with the token redirects at once, and sets a cookie that no script can read."""
        if not self.is_here(request):
            raise web.HTTPForbidden(text="this page is for the loopback alone\n")
        if self.knows(request.query.get("token")):
            response = web.Response(status=303, headers={**HEADERS, "Location": "/"})
            response.set_cookie(self.cookie, self.token, httponly=True, samesite="Strict", path="/")
            return response
        if not self.knows(request.cookies.get(self.cookie)):
            raise web.HTTPForbidden(text="open the address that candesk-page printed\n")
        nonce = secrets.token_urlsafe(TOKEN_BYTES)
        headers = {**HEADERS, "Content-Security-Policy": POLICY.format(nonce)}
        return web.Response(text=self.page.replace("NONCE", nonce), content_type="text/html", headers=headers)

    async def talk(self, request: web.Request) -> web.StreamResponse:
        if not self.is_here(request) or "Origin" not in request.headers or not self.knows(request.cookies.get(self.cookie)):
            raise web.HTTPForbidden(text="this page is for its own scripts alone\n")
        socket = web.WebSocketResponse(max_msg_size=MAX_BYTES, heartbeat=20)
        await socket.prepare(request)
        state = await self.state_for(socket)
        await self.push(socket, {"state": state, "counts": self.counts.shown(), "log": {"total": self.desk.total}})
        self.viewers.add(socket)
        try:
            if state["version"] != self.desk.version:
                await self.push(socket, {"state": await self.state_for(socket)})
            async for message in socket:
                if message.type != WSMsgType.TEXT:
                    break
                await self.answer(socket, message.data)
        finally:
            self.viewers.discard(socket)
            self.hidden.discard(socket)
            if not self.viewers:
                asyncio.get_running_loop().call_later(GRACE, self.end_unless_viewed)
        return socket

    def end_unless_viewed(self) -> None:
        if not self.viewers:
            self.ended.set()

    # ---- requests

    async def run(self, call: Callable[[], Any]) -> Any:
        return await asyncio.get_running_loop().run_in_executor(None, call)

    async def push(self, socket: web.WebSocketResponse, content: dict[str, Any]) -> None:
        with contextlib.suppress(ConnectionError, RuntimeError):
            await socket.send_str(json.dumps(content, ensure_ascii=False))

    async def push_all(self, content: dict[str, Any]) -> None:
        for it in list(self.viewers - self.hidden):
            await self.push(it, content)

    async def answer(self, socket: web.WebSocketResponse, text: str) -> None:
        """Answers a request with an object of its `id`, and `answer` or `refused`."""
        request: dict[str, Any] = {}
        try:
            request = dict(json.loads(text))
            want = str(request.get("want"))
            if want == "hidden":
                (self.hidden.add if request.get("hidden") else self.hidden.discard)(socket)
                answer: Any = None
            elif want in self.edits:
                await self.run(lambda: self.edits[want](request))
                answer = await self.view(request.get("look"), socket)
                await self.changed(socket)
            elif want in self.requests:
                answer = await self.run(lambda: self.requests[want](request))
            else:
                raise Refused(f"there is no request {want}")
            reply = {"id": request.get("id"), "answer": answer}
        except (Refused, tools.Fault) as error:
            reply = {"id": request.get("id"), "refused": str(error)}
        except (KeyError, TypeError, ValueError) as error:
            reply = {"id": request.get("id"), "refused": f"bad request: {error}"}
        except OSError as error:
            reply = {"id": request.get("id"), "refused": f"{error.filename or 'a file'}: {error.strerror or error}"}
        await self.push(socket, reply)

    async def state_for(self, socket: web.WebSocketResponse) -> dict[str, Any]:
        """The state of the database for a page, without what the page already has."""
        state: dict[str, Any] = await self.run(lambda: self.desk.glance(self.editions.get(socket, -1)))
        self.editions[socket] = state["edition"]
        return state

    async def view(self, look: Any, socket: web.WebSocketResponse) -> dict[str, Any]:
        """The state, and what a page shows: a message and a window of the log."""
        state = await self.state_for(socket)
        calls: dict[str, Callable[[], Any]] = {}
        if isinstance(look, dict):
            index, first, count = (int(look[it]) for it in ("index", "first", "count"))
            calls["lines"] = lambda: self.desk.lines(first, count)
            calls["message"] = lambda: self.desk.message(index)
        answers = await asyncio.gather(*map(self.run, calls.values()), return_exceptions=True)
        for it in answers:
            # (the message that was shown may have been removed)
            if isinstance(it, BaseException) and not isinstance(it, Refused):
                raise it
        return {"state": state, **{name: it for name, it in zip(calls, answers) if not isinstance(it, Refused)}}

    async def changed(self, editor: web.WebSocketResponse) -> None:
        """Shows an edit to all other viewers, and starts what takes the whole log."""
        for it in self.viewers - self.hidden - {editor}:
            await self.push(it, {"state": await self.state_for(it), "log": {"total": self.desk.total}})
        await self.push(editor, {"log": {"total": self.desk.total}})
        if self.desk.version != self.counted_version:
            self.later = asyncio.get_running_loop().create_task(self.recount())

    async def recount(self) -> None:
        """Filters and counts the whole log again."""
        await self.refilter()
        await self.push_all({"log": {"total": self.desk.total}})
        if not self.desk.log.is_live:
            await self.count_file()

    async def refilter(self) -> None:
        """Applies the filter again."""
        if self.desk.filter:
            message, signal = self.desk.filter
            await self.run(lambda: self.desk.set_filter(message, signal))

    async def count_file(self) -> None:
        """Counts the frames of each message of a log in a file. An edit in the meantime makes the counts void."""
        version = self.desk.version
        if version == self.counted_version:
            return
        self.counted_version = version

        def count() -> Counts:
            counts = Counts()
            for _, line in self.desk.objects():
                counts.put(line)
                if self.desk.version != version:
                    break
            return counts

        counts = await self.run(count)
        if self.desk.version == version:
            self.counts = counts
            await self.push_all({"counts": counts.shown()})

    # ---- a live log

    async def follow(self, read: Callable[[], list[bytes] | None]) -> None:
        """Keeps lines as they come, and shows them at most ten times a second. `read` returns lines, or None at the end."""
        log = self.desk.log
        assert isinstance(log, LiveLog)
        counts = LiveCounts(self.desk)
        self.counts = counts
        loop = asyncio.get_running_loop()
        shown = loop.time() - COUNTS_INTERVAL
        try:
            while (lines := await self.run(read)) is not None:
                log.put(lines)
                await self.run(lambda: counts.count(lines or []))
                content: dict[str, Any] = {}
                if loop.time() >= shown + COUNTS_INTERVAL:
                    shown, content["counts"] = loop.time(), counts.shown()
                    await self.refilter()
                content["log"] = {"total": self.desk.total}
                await self.push_all(content)
                await asyncio.sleep(LOG_INTERVAL)
        finally:
            counts.close()


async def serve(server: Server, port: int, ready: Callable[[str], None], tasks: list[Callable[[], Awaitable[None]]]) -> None:
    """Serves until it is cancelled, or the last viewer is gone."""
    app = web.Application(client_max_size=MAX_BYTES)
    app.router.add_get("/", server.open)
    app.router.add_get("/talk", server.talk)
    runner = web.AppRunner(app, access_log=None)
    await runner.setup()
    try:
        site = web.TCPSite(runner, LOOPBACK, port)
        await site.start()
        port = runner.addresses[0][1]
        server.hosts.update({f"{LOOPBACK}:{port}", f"localhost:{port}"})
        server.cookie = f"candesk-{port}"
        ready(f"http://{LOOPBACK}:{port}/?token={server.token}")
        running = [asyncio.ensure_future(it()) for it in tasks]
        await server.ended.wait()
        for it in running:
            it.cancel()
    finally:
        await runner.cleanup()
