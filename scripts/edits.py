"""Tries must-fail edits by the kit's `rt check`, many in one check, and reports for each whether the prover refuses it.

Edits of different functions are made in one copy of the crates, and one check covers them all. An edit is refused if the check
reports that a goal of its own function isn't proved, or that an answer in that function's proof is wrong: a function uses others
only by their contracts, which no edit of a body changes, so an edit opens no goal of another function. An edit that changes more
than bodies of functions, such as a constant, is tried alone, as is one about which a check of several reports nothing; alone, it is
refused if any goal of the crate stays open. An edit that is refused only because a proof names what the edit removed shows nothing
about a contract: it is hollow, which is reported, and is no failure.
"""

from __future__ import annotations

import os
import re
import shutil
import signal
import subprocess
import threading
from collections.abc import Iterable, Iterator
from dataclasses import dataclass, field
from enum import Enum

import proving

# The crates whose edits are tried together, by lanes. They are low and have many edits: above them a lane would have to check more
# crates than its edits save, and a lane's checks take half a gigabyte for each crate.
LANES = (
    (
        "dbc_values", "dbc_records", "byte_devices", "session_kept_lines", "can_frames", "dbc_text_buffer", "can_line_stream",
        "can_json_texts", "dbc_edits", "dbc_model", "candesk_words",
    ),
    ("dbc_tokens", "dbc_reader", "dbc_ranges", "dbc_faults"),
    ("can_entries", "can_bits", "can_overlap", "can_diagnostics", "can_references", "can_check"),
    ("can_layout", "can_decode"),
)
# what all lanes depend on
BASE = ("dbc_values", "dbc_records")
NAME = re.compile(r"[A-Za-z0-9_-][A-Za-z0-9_.-]*\.edit")
# the first line of a function: its indent and its name
HEAD = re.compile(r"^( *)(?:pub(?:\([^)]*\))? )?(?:const )?(?:unsafe )?fn (\w+)", re.M)
# a line of the prover's output with a location: the file, the line, and the message
LOCATED = re.compile(r"^(?:note: |error: )?(?:\./)?((?:src|proofs|specs)/\S+?):(\d+):\d+: (.*)$", re.M)
OPEN_GOAL = "it is not proved"
# the messages for a proof that names what no longer exists
NAMES_NOTHING = re.compile(r"has no field|is not in scope|has no `|was not admitted")
# a check that came to its end
ENDED = re.compile(r"^logic=(not-)?proved", re.M)


class Verdict(Enum):
    """The result of a trial of an edit."""

    REFUSED = "refused"
    PROVED = "NOT REFUSED: what it changes is still proved"
    HOLLOW = "HOLLOW: refused only since a proof names what it takes away"
    UNFIT = "BAD EDIT: it can't be made"
    UNKNOWN = "NOT TRIED: the check ended without a verdict"


@dataclass(frozen=True)
class Function:
    """A function of a crate: its file, its name, and its first and last line, including attributes and comments."""

    file: str
    name: str
    first: int
    last: int

    def has_line(self, file: str, line: int) -> bool:
        return file == self.file and self.first <= line <= self.last

    def has_proof(self, file: str) -> bool:
        """Whether a file has the proof of a function with this name."""
        return file.startswith("proofs/") and f"/{self.name}/" in f"{os.path.dirname(file)}/"


@dataclass(frozen=True)
class Edit:
    """An edit: its name, the new texts of files, and the functions whose bodies it changes; none if it changes more."""

    name: str
    texts: dict[str, str]
    functions: frozenset[Function]


@dataclass
class Output:
    """The output of a check."""

    text: str
    has_ended: bool = field(init=False)
    located: list[tuple[str, int, str]] = field(init=False)

    def __post_init__(self) -> None:
        self.has_ended = bool(ENDED.search(self.text))
        self.located = [(file, int(line), message) for file, line, message in LOCATED.findall(self.text)]

    def refusals(self, function: Function | None = None) -> Iterator[bool]:
        """The refusals of a function, or of all functions: each with whether it is hollow."""
        for file, line, message in self.located:
            if file.startswith("src/"):
                if OPEN_GOAL in message and (function is None or function.has_line(file, line)):
                    yield False
            elif "error" in message and (function is None or function.has_proof(file)):
                yield bool(NAMES_NOTHING.search(message))


def function_at(source: str, file: str, at: int) -> Function | None:
    """The function whose body contains a position of a source, or None."""
    head = next((it for it in reversed(list(HEAD.finditer(source))) if it.start() <= at), None)
    if head is None:
        return None
    indent, name = head.groups()
    end = source.find(f"\n{indent}}}\n", head.start())
    # (after clauses the brace is on its own line)
    brace = source.find(f"\n{indent}{{\n", head.start(), end)
    body = brace if brace >= 0 else source.find("{\n", head.start())
    if not body < at < end:
        return None
    lines = source.split("\n")
    first = source.count("\n", 0, head.start())
    while first > 0 and lines[first - 1].strip() and not lines[first - 1].strip().endswith(("{", "}", ";")):
        first -= 1
    return Function(file, name, first + 1, source.count("\n", 0, end) + 2)


def pairs_of(text: str) -> Iterator[tuple[str, str, str]]:
    """The pairs of an edit: file, old text and new text."""
    file = old = ""
    for line in text.split("\n"):
        if line.startswith("file: "):
            file = line.removeprefix("file: ").strip()
        elif line.startswith("old: "):
            old = line.removeprefix("old: ")
        elif line.startswith("new:"):
            yield file, old, line.removeprefix("new:").removeprefix(" ")


def edit_of(crate: str, name: str) -> Edit | None:
    """Reads an edit of the crate in this folder. None if it can't be made."""
    texts: dict[str, str] = {}
    functions: set[Function | None] = set()
    for file, old, new in pairs_of(content(f"{crate}/must-fail/{name}")):
        if file not in texts and not os.path.isfile(f"{crate}/{file}"):
            return None
        source = content(f"{crate}/{file}")
        text = texts.get(file, source)
        if text.count(old) != 1:
            return None
        texts[file] = text.replace(old, new)
        if not (old.startswith("use ") and new.startswith("use ")):
            functions.add(function_at(source, file, source.find(old)) if file.endswith(".rt") else None)
    if not NAME.fullmatch(name) or all(text == content(f"{crate}/{file}") for file, text in texts.items()):
        return None
    return Edit(name, texts, frozenset(it for it in functions if it) if None not in functions else frozenset())


def content(path: str) -> str:
    with open(path, encoding="utf-8") as text:
        return text.read()


def names_of(crate: str) -> list[str]:
    """The files of a crate's edits."""
    folder = f"{crate}/must-fail"
    return sorted(it for it in os.listdir(folder) if not it.endswith(".md")) if os.path.isdir(folder) else []


def first_batch(edits: Iterable[Edit]) -> tuple[list[Edit], list[Edit]]:
    """A batch of edits that change different functions, and the rest."""
    batch: list[Edit] = []
    rest: list[Edit] = []
    taken: set[Function] = set()
    for edit in edits:
        if edit.functions and not edit.functions & taken:
            batch.append(edit)
            taken |= edit.functions
        else:
            rest.append(edit)
    return batch, rest


class Stopped(Exception):
    """No further check is wanted."""


class Checks:
    """Checks of crates, which can be stopped."""

    def __init__(self) -> None:
        self.lock = threading.Lock()
        self.running: set[subprocess.Popen[str]] = set()
        self.is_stopped = False

    def run(self, folder: str) -> Output:
        """Checks the crate in a folder."""
        with self.lock:
            if self.is_stopped:
                raise Stopped
            ran = subprocess.Popen(
                ["rt", "check"], cwd=folder, stdin=subprocess.DEVNULL, stdout=subprocess.PIPE, stderr=subprocess.STDOUT, text=True,
                errors="replace", start_new_session=True,
            )
            self.running.add(ran)
        try:
            return Output(ran.communicate()[0])
        finally:
            with self.lock:
                self.running.discard(ran)

    def stop(self) -> None:
        """Ends the running checks, and lets no other start."""
        with self.lock:
            self.is_stopped = True
            for it in self.running:
                os.killpg(it.pid, signal.SIGTERM)


class Trial:
    """The trial of a crate's edits in a copy of the crates that nothing else uses meanwhile, in which this crate and all below it
    are checked. Afterwards `verdicts` has the result of each edit by name, and `count` how many checks that took."""

    def __init__(self, checks: Checks, folder: str) -> None:
        self.checks, self.folder, self.count = checks, folder, 0
        self.verdicts: dict[str, Verdict] = {}

    def run(self) -> None:
        found = {name: edit_of(self.folder, name) for name in names_of(self.folder)}
        self.verdicts = {name: Verdict.UNFIT for name, edit in found.items() if edit is None}
        edits = [edit for edit in found.values() if edit]
        batch, left = first_batch(edits)
        while len(batch) > 1:
            output = self.check(batch)
            refused = [it for it in batch if output.has_ended and is_refused(it, output)]
            self.verdicts |= {it.name: Verdict.REFUSED for it in refused}
            if not refused:
                break
            batch, left = first_batch([*left, *(it for it in batch if it not in refused)])
        for edit in edits:
            if edit.name not in self.verdicts:
                self.verdicts[edit.name] = verdict_alone(self.check([edit]))

    def check(self, edits: list[Edit]) -> Output:
        """Makes edits of different functions, checks the crate, and undoes them."""
        before = {file: content(f"{self.folder}/{file}") for edit in edits for file in edit.texts}
        self.count += 1
        try:
            for file, source in before.items():
                write(f"{self.folder}/{file}", merged(source, [it.texts[file] for it in edits if file in it.texts]))
            return self.checks.run(self.folder)
        finally:
            for file, source in before.items():
                write(f"{self.folder}/{file}", source)


def is_refused(edit: Edit, output: Output) -> bool:
    """Whether a check of several edits refuses this one for its own reason."""
    return any(not is_hollow for function in edit.functions for is_hollow in output.refusals(function))


def verdict_alone(output: Output) -> Verdict:
    """The result of a check of one edit alone."""
    if not output.has_ended:
        return Verdict.UNKNOWN
    refusals = list(output.refusals())
    if False in refusals:
        return Verdict.REFUSED
    return Verdict.HOLLOW if refusals or "logic=not-proved" in output.text else Verdict.PROVED


def merged(source: str, texts: list[str]) -> str:
    """A source with the changes of several texts of it, each of which changes other lines."""
    lines = source.split("\n")
    together = list(lines)
    for text in texts:
        for at, (old, new) in enumerate(zip(lines, text.split("\n"), strict=True)):
            if old != new:
                together[at] = new
    return "\n".join(together)


def write(path: str, text: str) -> None:
    with open(path, "w", encoding="utf-8") as file:
        file.write(text)


@dataclass(frozen=True)
class Lane:
    """The crates that a lane checks, lowest first, and those among them whose edits it tries."""

    names: list[str]
    tried: set[str]


def lanes_of(tried: Iterable[str]) -> list[Lane]:
    """For each lane with crates to try, these crates and those below them."""
    wanted = set(tried)
    own = [[it for it in lane if it in wanted] for lane in LANES]
    return [Lane(proving.with_below(*names), set(names)) for names in own if names]


class Edits(threading.Thread):
    """The trials of crates' edits in lanes, each in its own copy, since a check locks all crates below its own. What all lanes
    depend on is checked once, and copied. `passed` and `failures` are the result at the end."""

    def __init__(self, copies: list[str], lanes: list[Lane]) -> None:
        super().__init__(daemon=True)
        self.copies, self.lanes = copies, lanes
        self.untried = {name for lane in lanes for name in lane.tried}
        self.passed, self.failures = 0, list[str]()
        self.checks, self.lock = Checks(), threading.Lock()

    def run(self) -> None:
        try:
            self.share()
        except (Stopped, OSError) as error:
            print(f"prove: {error!r}", flush=True)
        else:
            threads = [threading.Thread(target=self.lane, args=it, daemon=True) for it in zip(self.copies, self.lanes, strict=True)]
            for thread in threads:
                thread.start()
            for thread in threads:
                thread.join()
        self.failures += [f"{it}: its edits were NOT TRIED" for it in sorted(self.untried)]

    def share(self) -> None:
        """Checks what all lanes depend on in the first lane's copy, and copies it into the others."""
        shared = [it for it in BASE if all(it in lane.names for lane in self.lanes)]
        if not all(self.is_proved(self.copies[0], it) for it in shared):
            raise Stopped
        for copy in self.copies[1:]:
            for it in shared:
                shutil.rmtree(f"{copy}/crates/{it}")
                shutil.copytree(f"{self.copies[0]}/crates/{it}", f"{copy}/crates/{it}")

    def stop(self) -> None:
        """Stops the trials."""
        self.checks.stop()

    def lane(self, copy: str, lane: Lane) -> None:
        try:
            for name in lane.names:
                if not self.is_proved(copy, name):
                    return
                if name in lane.tried:
                    self.try_crate(copy, name)
        except Stopped:
            return

    def is_proved(self, copy: str, name: str) -> bool:
        """Checks a crate, and returns whether those above it can follow."""
        output = self.checks.run(f"{copy}/crates/{name}")
        if "logic=proved" in output.text:
            return True
        print(f"{output.text}prove: `rt check` doesn't prove {name}", flush=True)
        return False

    def try_crate(self, copy: str, name: str) -> None:
        trial = Trial(self.checks, f"{copy}/crates/{name}")
        trial.run()
        lines = {it: f"{name}/{it}: {verdict.value}" for it, verdict in trial.verdicts.items() if verdict is not Verdict.REFUSED}
        bad = [line for it, line in lines.items() if trial.verdicts[it] is not Verdict.HOLLOW]
        refused = len(trial.verdicts) - len(bad)
        print(f"prove: {name}: {refused} of {len(trial.verdicts)} edits refused, in {trial.count} checks", flush=True)
        for line in lines.values():
            print(f"prove: {line}", flush=True)
        with self.lock:
            self.untried.discard(name)
            self.passed += refused
            self.failures += bad
