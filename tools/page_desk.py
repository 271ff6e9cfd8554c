"""The state of a live page: a database that is edited, and the visible window of its log.

One `candesk session --keep` has the database and the lines of the window, so that every answer is the program's. The log itself
never goes through the session: it stays in its file, where an index finds its lines, or comes live into a ring buffer.
"""

from __future__ import annotations

import array
import collections
import contextlib
import itertools
import os
import re
import subprocess
import threading
from collections.abc import Iterator
from typing import IO, Any, BinaryIO, Union

import candesk_tools as tools
import compared_databases
import shell_session
import vector_order

# the most lines of a window, and of a live log, and the most bytes of a line
WINDOW = 200
RING = 200_000
MAX_BYTES = 4096
# how many of the last objects of a message are kept, for its plots
RECENT = 120
# how many live lines are counted at once (their objects fit in a pipe), and how many at most in one call
BATCH = 100
MAX_COUNTED = 2_000
# how many texts are kept for undo
MAX_UNDO = 100
# how many diagnostics a page shows
MAX_FOUND = 50
# a file's index has the offset of each line whose number, from 0, is a multiple of this
STEP = 64
CHUNK = 1 << 20
# the start and length of a signal's statement
POSITION = re.compile(rb"( SG_ \w+(?: m\d+M?| M)? : )(\d+)\|(\d+)@")
SIGNAL = re.compile(rb" SG_ (\w+) ")


class Refused(Exception):
    """An edit or a request that is refused, with the message for the page."""


class FileLog:
    """A log in a file, whose lines are found by an index."""

    is_live = False

    def __init__(self, path: str) -> None:
        self.path = path
        self.offsets = array.array("Q", [0])
        self.count = 0
        with open(path, "rb") as file:
            self.read(file)

    def read(self, file: BinaryIO) -> None:
        base, last = 0, b"\n"
        for chunk in iter(lambda: file.read(CHUNK), b""):
            at = -1
            while (at := chunk.find(b"\n", at + 1)) >= 0:
                self.count += 1
                if self.count % STEP == 0:
                    self.offsets.append(base + at + 1)
            base, last = base + len(chunk), chunk[-1:]
        self.count += last != b"\n"

    # the index of the first line that is kept
    first = 0

    def lines(self, first: int, count: int) -> list[bytes]:
        with open(self.path, "rb") as file:
            file.seek(self.offsets[min(first // STEP, len(self.offsets) - 1)])
            for _ in range(first % STEP):
                file.readline()
            return [line.rstrip(b"\n") for _ in range(min(count, self.count - first)) if (line := file.readline())]

    def pieces(self) -> tuple[int, Iterator[bytes]]:
        """The index of the first line, and all lines in pieces."""
        return 0, self.chunks()

    def chunks(self) -> Iterator[bytes]:
        with open(self.path, "rb") as file:
            yield from iter(lambda: file.read(CHUNK), b"")


class LiveLog:
    """The last lines of a live log."""

    is_live = True

    def __init__(self, limit: int = RING) -> None:
        self.kept: collections.deque[bytes] = collections.deque(maxlen=limit)
        self.came = 0
        self.lock = threading.Lock()

    @property
    def count(self) -> int:
        return len(self.kept)

    @property
    def first(self) -> int:
        """The index of the first line that is kept; later lines replaced those before it."""
        return self.came - len(self.kept)

    def put(self, lines: list[bytes]) -> None:
        with self.lock:
            self.kept.extend(lines)
            self.came += len(lines)

    def lines(self, first: int, count: int) -> list[bytes]:
        with self.lock:
            at = first - self.first
            return [self.kept[it] for it in range(max(at, 0), min(at + count, len(self.kept)))]

    def pieces(self) -> tuple[int, Iterator[bytes]]:
        with self.lock:
            first, lines = self.first, list(self.kept)
        parts = (lines[at : at + WINDOW] for at in range(0, len(lines), WINDOW))
        return first, (b"".join(it + b"\n" for it in part) for part in parts)


Log = Union[FileLog, LiveLog]


class Frames:
    """The frames of a message: how many, the first and last time, and the last objects."""

    def __init__(self, time: float) -> None:
        self.count, self.first, self.last = 0, time, time
        self.recent: collections.deque[bytes] = collections.deque(maxlen=RECENT)

    def put(self, time: float, line: bytes) -> None:
        self.count += 1
        self.last = time
        self.recent.append(line)


class Desk:
    """A database that is edited. Calls may come from several threads; they run one after another."""

    def __init__(self, path: str, short: bool, log: Log) -> None:
        self.path, self.short, self.log = path, short, log
        self.lock = threading.RLock()
        with open(path, "rb") as file:
            self.read_text = file.read()
        self.session = shell_session.Session(path, short, WINDOW)
        self.before: collections.deque[bytes] = collections.deque(maxlen=MAX_UNDO)
        self.after: list[bytes] = []
        # `version` increases with every edit, and `edition` if the list of messages changes
        self.version = self.edition = 0
        self.text = self.saved = self.session.text()
        self.messages = self.listed()
        self.diagnostics = [tools.shown(it) for it in self.session.diagnostics()]
        self.found = [(it, False) for it in self.diagnostics[:MAX_FOUND]]
        self.filter: tuple[str, str] | None = None
        self.matches: array.array[int] | None = None

    def close(self) -> None:
        self.session.close()

    # ---- what is shown

    def listed(self) -> list[dict[str, Any]]:
        """The messages, in the form for the list of a page."""
        found = tools.messages_of(self.text)
        return [{"index": it.index, "number": it.number, "name": it.name, "size": it.length} for it in found]

    def summary(self) -> dict[str, Any]:
        return {
            "version": self.version, "edition": self.edition, "file": os.path.basename(self.path),
            "isSaved": self.text == self.saved, "undo": len(self.before), "redo": len(self.after), "live": self.log.is_live,
        }

    def state(self) -> dict[str, Any]:
        """The messages, the diagnostics, and how many edits can be undone."""
        with self.lock:
            return {**self.summary(), "messages": self.messages, "diagnostics": self.diagnostics}

    def glance(self, edition: int) -> dict[str, Any]:
        """The same for a page, but of the diagnostics only the count and the first ones, each with whether it is new. The messages
        are left out if the page already has those of this edition."""
        with self.lock:
            messages = {} if edition == self.edition else {"messages": self.messages}
            return {**self.summary(), **messages, "amount": len(self.diagnostics), "found": self.found}

    @contextlib.contextmanager
    def printed(self) -> Iterator[str]:
        """A temporary file with the database as it is now."""
        with tools.temporary_database() as file:
            file.write(self.text)
            file.flush()
            yield file.name

    def output(self, *words: str) -> bytes:
        """The output of the program for the database as it is now."""
        with self.printed() as path:
            done = subprocess.run([tools.program(), *words, "--", path], stdin=subprocess.DEVNULL, capture_output=True, check=False)
        return done.stdout

    def message(self, index: int) -> str:
        """The JSON object of a message, as the program writes it. The program is ended before it writes later ones."""
        if not 0 <= index < len(self.messages):
            raise Refused(f"there is no message {index}")
        with self.printed() as path:
            words = [tools.program(), "dump", "--json", "--", path]
            with subprocess.Popen(words, stdin=subprocess.DEVNULL, stdout=subprocess.PIPE) as running:
                assert running.stdout
                line = next(itertools.islice(running.stdout, index, None), b"")
                running.kill()
        if not line.endswith(b"\n"):
            raise Refused(f"there is no message {index}")
        return line.decode()

    def remedies(self) -> dict[str, str]:
        """The remedy of each diagnostic that a page shows, by its text."""
        shown = {words for words, _ in self.found}
        found: dict[str, str] = {}
        words = ""
        for line in tools.shown(self.output("explain")).split("\n"):
            if line.startswith(("line ", "lines ")):
                words = line.partition(": ")[2]
            elif words in shown and line.startswith("  remedy: "):
                found.setdefault(words, line.removeprefix("  remedy: "))
        return found

    def lines(self, first: int, count: int) -> dict[str, Any]:
        """A window of the log, decoded; of the filtered lines, if there is a filter."""
        with self.lock:
            count = max(0, min(count, WINDOW))
            total = self.total
            first = max(0, min(first, total - count))
            if self.matches is None:
                begin = self.log.first + first
                lines = [(begin + at, line) for at, line in enumerate(self.log.lines(begin, count))]
            else:
                wanted = self.matches[first : first + count]
                lines = [(at, line) for at in wanted if at >= self.log.first for line in self.log.lines(at, 1)]
            shown = self.decoded([line for _, line in lines])
            return {"first": first, "total": total, "items": [[at + 1, text] for (at, _), text in zip(lines, shown)]}

    @property
    def total(self) -> int:
        """The number of lines, after the filter if there is one."""
        return self.log.count if self.matches is None else len(self.matches)

    def decoded(self, lines: list[bytes]) -> list[str]:
        """Lines as the session shows them. (A line that is too long for the session is shown undecoded.)"""
        kept = [it for it in lines if len(it) <= MAX_BYTES]
        self.session.log(kept)
        shown = iter(self.session.shown_lines()[-len(kept) :] if kept else [])
        return [tools.shown(next(shown) if len(it) <= MAX_BYTES else it[: MAX_BYTES]) for it in lines]

    def differences(self) -> list[str]:
        """The differences from the file as it was read or saved."""
        with self.lock, tools.temporary_database() as old, self.printed() as new:
            old.write(self.read_text)
            old.flush()
            return list(compared_databases.differences(tools.database(old.name), tools.database(new)))

    # ---- edits

    def edit(self, command: str) -> None:
        """Does an edit, in the form of a session command. Raises if it is refused; then nothing changes."""
        with self.lock:
            reply = self.session.ask(command.encode("utf-8", "surrogateescape"))[0]
            if reply != b"ok":
                raise Refused(reply.decode())
            self.before.append(self.text)
            self.after.clear()
            self.changed(self.session.text())

    def move(self, index: int, signal: str, start: int, length: int) -> None:
        """Gives a signal another start or length, in its statement as it is printed."""
        with self.lock:
            at = -1
            for pieces in tools.canonical_lines(self.text):
                line = b"".join(pieces)
                at += tools.MESSAGE.match(line) is not None
                found = SIGNAL.match(line)
                if at == index and found and found[1].decode() == signal:
                    moved = POSITION.sub(rb"\g<1>%d|%d@" % (start, length), line, count=1)
                    self.edit(f"change-signal {index} " + moved.lstrip().decode("utf-8", "surrogateescape"))
                    return
            raise Refused(f"there is no signal {signal}")

    def changed(self, text: bytes) -> None:
        """Updates the state after an edit. New diagnostics come first."""
        self.text = text
        self.version += 1
        messages, self.messages = self.messages, self.listed()
        self.edition += messages != self.messages
        before = set(self.diagnostics)
        self.diagnostics = [tools.shown(it) for it in self.session.diagnostics()]
        new = [it for it in self.diagnostics if it not in before]
        others = (it for it in self.diagnostics if it in before)
        self.found = [*((it, True) for it in new[:MAX_FOUND]), *((it, False) for it in others)][:MAX_FOUND]

    def open_text(self, text: bytes) -> None:
        """Opens an earlier or later text in a new session."""
        with tools.temporary_database() as file:
            file.write(text)
            file.flush()
            opened = shell_session.Session(file.name, self.short, WINDOW)
        opened.path = self.path
        self.session.close()
        self.session = opened
        self.changed(text)

    def undo(self) -> None:
        with self.lock:
            if not self.before:
                raise Refused("there is nothing to undo")
            self.after.append(self.text)
            self.open_text(self.before.pop())

    def redo(self) -> None:
        with self.lock:
            if not self.after:
                raise Refused("there is nothing to redo")
            self.before.append(self.text)
            self.open_text(self.after.pop())

    def save(self) -> None:
        """Replaces the file with the database; refuses if others changed the file in the meantime, or it has // comments."""
        with self.lock:
            with open(self.path, "rb") as file:
                if file.read() != self.read_text:
                    raise Refused("the file was changed by another since it was read")
            if tools.comment_line(self.read_text):
                raise Refused("the file has // comments, which are not printed: remove them, or save by candesk-shell")
            written = vector_order.written_like(self.text, self.read_text)
            with tools.replacing(self.path) as new:
                new.write(written)
            self.read_text, self.saved = written, self.text

    # ---- the whole log

    def decoder(self, text: bytes) -> subprocess.Popen[bytes]:
        """A running program that decodes lines into JSON objects."""
        with tools.temporary_database() as file:
            file.write(text)
            file.flush()
            words = [tools.program(), "decode", *(["--short"] if self.short else []), "--json", "--", file.name]
            running = subprocess.Popen(words, start_new_session=True, stdin=subprocess.PIPE, stdout=subprocess.PIPE,
                                       stderr=subprocess.DEVNULL)
            assert running.stdin and running.stdout
            # (the database has been read once a line is answered)
            running.stdin.write(b"\n")
            running.stdin.flush()
            running.stdout.readline()
        return running

    def objects(self) -> Iterator[tuple[int, bytes]]:
        """The indexes and JSON objects of all lines of the log, decoded by the database as it is now."""
        with self.decoder(self.text) as running:
            assert running.stdin and running.stdout
            first, pieces = self.log.pieces()
            feeder = threading.Thread(target=self.feed, args=(running.stdin, pieces), daemon=True)
            feeder.start()
            try:
                yield from enumerate(running.stdout, first)
            finally:
                running.kill()
                feeder.join()

    @staticmethod
    def feed(sink: IO[bytes], pieces: Iterator[bytes]) -> None:
        with contextlib.suppress(OSError):
            for piece in pieces:
                sink.write(piece)
        with contextlib.suppress(OSError):
            sink.close()

    def set_filter(self, message: str, signal: str) -> None:
        """Filters the lines: only those that show a message, or a signal of it; all lines if both are empty."""
        wanted = b'"message":"%s"' % message.encode() if message else b'"signals":{'
        shown = b'"%s":{' % signal.encode() if signal else b""
        found = None
        if message or signal:
            found = array.array("Q", (at for at, line in self.objects() if wanted in line and shown in line))
        with self.lock:
            self.filter, self.matches = (message, signal) if found is not None else None, found


class Counts:
    """The frames of each message, by its ID as in `BO_`."""

    def __init__(self) -> None:
        self.found: dict[int, Frames] = {}

    def put(self, line: bytes) -> None:
        """Counts the JSON object of a line."""
        at = line.find(b',"number":')
        if at < 0:
            return
        end = at + len(b',"number":')
        number = int(line[end : end + 11].split(b",", 1)[0].rstrip(b"}\n"))
        time = float(line[8 : line.index(b",")])
        frames = self.found.get(number)
        if frames is None:
            frames = self.found[number] = Frames(time)
        frames.put(time, line)

    def shown(self) -> dict[str, dict[str, Any]]:
        return {
            str(number): {"count": it.count, "cycle": (it.last - it.first) / (it.count - 1) if it.count > 1 else None}
            for number, it in list(self.found.items())
        }


class LiveCounts(Counts):
    """Counts of a live log, by a program that is kept running."""

    def __init__(self, desk: Desk) -> None:
        super().__init__()
        self.desk, self.version = desk, desk.version
        self.running = desk.decoder(desk.text)
        self.waiting: collections.deque[bytes] = collections.deque()

    def close(self) -> None:
        self.running.kill()
        self.running.wait()

    def count(self, lines: list[bytes]) -> None:
        """Counts lines, by the database as it is now: after an edit all kept lines are counted again. Of very many lines, the last
        are counted by later calls."""
        limit = max(MAX_COUNTED, 2 * len(lines))
        if self.version != self.desk.version:
            self.close()
            self.version, self.found = self.desk.version, {}
            self.running = self.desk.decoder(self.desk.text)
            lines = self.desk.log.lines(self.desk.log.first, self.desk.log.count)
            self.waiting.clear()
        self.waiting.extend(lines)
        assert self.running.stdin and self.running.stdout
        for _ in range(0, min(len(self.waiting), limit), BATCH):
            batch = [self.waiting.popleft()[:MAX_BYTES] for _ in range(min(BATCH, len(self.waiting)))]
            self.running.stdin.write(b"".join(it + b"\n" for it in batch))
            self.running.stdin.flush()
            for _ in batch:
                self.put(self.running.stdout.readline())
