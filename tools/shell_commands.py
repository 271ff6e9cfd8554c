"""The commands of candesk-shell: those of a session, with messages by name or ID, and a few of its own."""

from __future__ import annotations

import collections
import contextlib
import itertools
import os
import re
import signal
import subprocess
import threading
from collections.abc import Callable
from typing import Union

import candesk_tools as tools
import shell_session
import vector_order

HELP = """\
MESSAGE is a name, an ID as in BO_ (0x.. too; bit 31 may be left out if no other message is meant), or @N for index N.

list                                messages, with index, ID, length and signals
show diagnostics                    what `candesk check` would write
show layout MESSAGE                 its layout diagram
show lines [N]                      the decoded lines that are kept, or the last N
print                               the database in its canonical form
log FILE                            keeps the lines of a log
log (1.0) can0 123#00               keeps this line
log |COMMAND, log stop              keeps each line of a command such as `candump -L can0` as it comes; stops the command
add-message [MESSAGE] BO_ ..        before the message, or last
remove-message MESSAGE
change-message MESSAGE NAME LENGTH SENDER
renumber MESSAGE ID
add-signal MESSAGE [SIGNAL] SG_ ..  before the signal, or last
remove-signal MESSAGE NAME
change-signal MESSAGE SG_ ..        replaces the signal of the same name
rename-signal MESSAGE OLD NEW
set-values VAL_ ..    set-mux SG_MUL_VAL_ ..    set-table VAL_TABLE_ ..    set-attribute BA_ .. BO_ ..
drop-values MESSAGE NAME    drop-mux MESSAGE NAME    drop-table NAME    drop-attribute MESSAGE "NAME"
undo                                the database as it was before the last edit
save [FILE] [--drop-comments]       writes the database to FILE, by default the file that was opened
help, quit
"""
SETTING = ("set-mux", "set-values", "set-table", "set-attribute", "drop-table")
ON_MESSAGE = ("remove-message", "change-message", "remove-signal", "change-signal", "rename-signal")
ON_NUMBER = ("drop-mux", "drop-values", "drop-attribute")
EDITS = (*SETTING, *ON_MESSAGE, *ON_NUMBER, "add-message", "add-signal", "renumber")
OWN = ("list", "show", "print", "log", "undo", "save", "help", "quit")
BIT_31 = 1 << 31
# the statements kept verbatim that may name signals: signal groups, and others in which the signal follows its message ID
GROUPS, NAMING = b"SIG_GROUP_", (b"SIG_TYPE_REF_", b"BA_REL_")
# the statement in a session command; and what a statement of a signal needs before it
STATEMENT = re.compile(r"(?<= )(BO_|SG_MUL_VAL_|SG_|VAL_TABLE_|VAL_|BA_) .*")
MESSAGE_BEFORE = "BO_ 0 M: 8 E\n "
Write = Callable[[Union[str, bytes]], None]
# how many databases are kept for undo, and how many diagnostics that came or went are shown
MAX_UNDO = 100
MAX_SHOWN = 10
# how many lines of a file are passed to the session between checks for an interrupt
AT_ONCE = 20000


def refused(text: str) -> tools.Fault:
    return tools.Fault(text, tools.REJECTED)


def whole_number(word: str) -> int | None:
    try:
        return int(word, 0)
    except ValueError:
        return None


def raw(text: str) -> bytes:
    return text.encode("utf-8", "surrogateescape")


def explained(command: str) -> list[str]:
    """The report of `candesk explain` for the statement in a command: the marked line, what was found, and what was expected."""
    found = STATEMENT.search(command)
    if not found:
        return []
    with tools.temporary_database() as file:
        file.write(raw((MESSAGE_BEFORE if found[1] == "SG_" else "") + found.group() + "\n"))
        file.flush()
        done = subprocess.run([tools.program(), "explain", file.name], stdin=subprocess.DEVNULL, capture_output=True, check=False)
    # (a text that isn't rejected has no line on standard error)
    return done.stdout.decode("utf-8", "surrogateescape").removesuffix("\n").split("\n")[1:] if done.stderr else []


class Shell:
    """An open database with its earlier versions, and the output of each command."""

    def __init__(self, path: str, is_short: bool, keep: int | None, write: Write) -> None:
        with open(path, "rb") as file:
            self.read_text = file.read()
        self.path, self.write = path, write
        self.session = shell_session.Session(path, is_short, keep)
        self.before: collections.deque[bytes] = collections.deque(maxlen=MAX_UNDO)
        self.listening: subprocess.Popen[bytes] | None = None
        self.lost = ""
        self.is_interrupted = False
        # (held while lines are added, and while the session is replaced by another one)
        self.changing = threading.RLock()
        self.read_session()
        self.saved = self.text
        self.found = self.session.diagnostics()

    def close(self) -> None:
        try:
            self.stop_listening()
        finally:
            self.session.close()

    @property
    def is_edited(self) -> bool:
        return self.text != self.saved

    def read_session(self) -> None:
        """Reads the text that the session prints, and the messages in it."""
        self.text = self.session.text()
        self.messages = tools.messages_of(self.text)

    # ---- messages and signals by name

    def message(self, word: str) -> tools.Message:
        number = whole_number(word)
        if word.startswith("@"):
            index = whole_number(word[1:])
            found = [it for it in self.messages if it.index == index]
        elif number is not None:
            numbers = [number] if any(it.number == number for it in self.messages) else [number | BIT_31]
            found = [it for it in self.messages if it.number in numbers]
        else:
            found = [it for it in self.messages if it.name == word]
        if not found:
            raise refused(f"there is no message {word}")
        if len(found) > 1:
            raise refused(f"{word} is more than one message: give " + " or ".join(f"@{it.index}" for it in found))
        return found[0]

    def number(self, word: str) -> int | None:
        """The ID of a message, or an ID that no message has."""
        number = whole_number(word)
        return self.message(word).number if number is None or any(it.number == number | BIT_31 for it in self.messages) else number

    # ---- commands

    def do(self, line: str) -> bool:
        """Runs the command in a line. Returns False if it is `quit`."""
        word, _, rest = line.strip().partition(" ")
        rest = rest.strip()
        if self.lost:
            lost, self.lost = self.lost, ""
            tools.report(f"log |COMMAND has ended: {lost}")
        if word == "rename-signal":
            self.rename(rest)
        elif word in EDITS:
            self.edit(self.command_of(word, rest))
        elif word == "quit":
            return False
        elif word in OWN:
            getattr(self, "do_" + word)(rest)
        elif word:
            raise refused(f"there is no command {word}; help lists them")
        return True

    def command_of(self, word: str, rest: str) -> str:
        """The session command of an edit: with indexes and IDs of messages."""
        first, _, others = rest.partition(" ")
        others = others.strip()
        if not first:
            raise refused(f"{word} takes more words; help lists them")
        if word in SETTING:
            return f"{word} {rest}"
        if word in ON_NUMBER:
            return f"{word} {self.number(first)} {others}"
        if word == "add-message":
            index = len(self.messages) if first == "BO_" else self.message(first).index
            return f"{word} {index} {rest if first == 'BO_' else others}"
        message = self.message(first)
        if word == "renumber":
            number = whole_number(others)
            return f"{word} {message.index} {others if number is None else number}"
        if word == "add-signal":
            return self.added_signal(message, others)
        words = others.split() if word != "change-signal" else [others]
        return " ".join([word, str(message.index), *words])

    def added_signal(self, message: tools.Message, rest: str) -> str:
        before, _, statement = rest.partition(" ")
        if before == "SG_":
            return f"add-signal {message.index} {len(message.signals)} {rest}"
        index = whole_number(before[1:]) if before.startswith("@") else None
        if index is None and before not in message.signals:
            raise refused(f"{message.name} has no signal {before}")
        index = message.signals.index(before) if index is None else index
        return f"add-signal {message.index} {index} {statement.strip()}"

    def rename(self, rest: str) -> None:
        """Renames a signal, and reports the lines of the printed database in which statements kept verbatim still use the old name;
        no edit changes those."""
        command = self.command_of("rename-signal", rest)
        self.edit(command)
        message, old = self.messages[int(command.split()[1])], command.split()[2]
        assert message.number is not None
        if lines := lines_naming(self.text, message.number, old):
            kind = "line" if len(lines) == 1 else "lines"
            self.write(f"statements kept verbatim still name {old}: {kind} {', '.join(map(str, lines))} of print")

    def edit(self, command: str) -> None:
        with self.changing:
            reply = self.session.ask(raw(command))[0]
            if reply != b"ok":
                reason = "bad command: a statement has a fault, or a word is none that it takes"
                raise refused("\n".join([reason, *explained(command)]) if reply == b"bad command" else reply.decode())
            self.before.append(self.text)
            self.read_session()
        self.report_change("ok")

    def report_change(self, done: str) -> None:
        """Writes how many diagnostics there are, and which came and went."""
        old, self.found = self.found, self.session.diagnostics()
        gone = list((collections.Counter(old) - collections.Counter(self.found)).elements())
        came = list((collections.Counter(self.found) - collections.Counter(old)).elements())
        change = f"{len(gone)} went, {len(came)} came" if gone or came else "as before"
        self.write(f"{done}; {tools.counted(len(self.found), 'diagnostic')}, {change}")
        lines: list[bytes]
        for sign, lines in ((b"- ", gone), (b"+ ", came)):
            for line in lines[:MAX_SHOWN]:
                self.write(sign + line)
            if len(lines) > MAX_SHOWN:
                self.write(sign.decode() + f"and {len(lines) - MAX_SHOWN} more")

    def do_list(self, _: str) -> None:
        for it in self.messages:
            number = it.number or 0
            hexadecimal = f"0x{number & ~BIT_31:X}" + (" (29 bits)" if number & BIT_31 else "")
            length = tools.counted(it.length, "byte")
            self.write(f"@{it.index} {it.name} {it.number} {hexadecimal}, {length}: {' '.join(it.signals)}")

    def do_show(self, rest: str) -> None:
        what, _, word = rest.partition(" ")
        if what == "diagnostics" and not word:
            lines = self.session.diagnostics()
        elif what == "layout" and word:
            lines = self.session.ask(b"show layout %d" % self.message(word).index)[1]
        elif what == "lines" and (not word or word.isdecimal()):
            lines = self.session.shown_lines()
            lines = lines[max(0, len(lines) - int(word)) :] if word else lines
        else:
            raise refused("show takes diagnostics, layout MESSAGE, or lines [N]")
        for line in lines:
            self.write(line)

    def do_print(self, _: str) -> None:
        self.write(self.text.removesuffix(b"\n"))

    def do_help(self, _: str) -> None:
        self.write(HELP.rstrip("\n"))

    def do_undo(self, _: str) -> None:
        """Opens the previous database in a new session, with the lines that are kept."""
        if not self.before:
            raise refused("there is nothing to undo")
        with tools.temporary_database() as file, self.changing:
            file.write(self.before[-1])
            file.flush()
            opened = shell_session.Session(file.name, self.session.short, self.session.keep)
            opened.path = self.path
            opened.log(list(self.session.kept))
            old, self.session = self.session, opened
            old.close()
        self.before.pop()
        self.read_session()
        self.report_change("undone")

    def do_save(self, rest: str) -> None:
        words = rest.split()
        drops = "--drop-comments" in words
        words = [it for it in words if it != "--drop-comments"]
        if len(words) > 1:
            raise refused("save takes one FILE")
        path = words[0] if words else self.path
        there = b""
        with contextlib.suppress(FileNotFoundError), open(path, "rb") as file:
            there = file.read()
        is_own = os.path.exists(path) and os.path.samefile(path, self.path)
        if is_own and there != self.read_text:
            raise refused(f"{path} was changed by another since it was read: save to another file")
        if there and not is_own and words and tools.comment_line(there) and not drops:
            raise refused(f"{path} is there, and has // comments: save to another file, or --drop-comments removes them")
        if is_own and tools.comment_line(there) and not drops:
            raise refused(f"{path} has // comments, which are not printed: save to another file, or --drop-comments removes them")
        # (no edit changes statements that are kept verbatim, so those of the file are still all that there are)
        written = vector_order.written_like(self.text, self.read_text) if is_own else self.text
        with tools.replacing(path) as file:
            file.write(written)
        if is_own:
            self.read_text = written
        self.saved = self.text
        self.write(f"saved {path}")

    # ---- logs

    def do_log(self, rest: str) -> None:
        if rest.startswith("("):
            self.report_log(*self.session.log([raw(rest)]))
        elif rest == "stop":
            if not self.listening:
                raise refused("nothing is listened to")
            self.stop_listening()
        elif rest.startswith("|"):
            self.listen(rest[1:].strip())
        elif rest:
            self.log_file(rest)
        else:
            raise refused("log takes a FILE, a line of a log, |COMMAND, or stop")

    def log_file(self, path: str) -> None:
        """Adds the lines of a file, until it is interrupted."""
        all_taken, first_refusal = 0, b""
        self.is_interrupted = False
        with tools.naming(path), open(path, "rb") as file:
            while lines := [it.removesuffix(b"\n") for it in itertools.islice(file, AT_ONCE)]:
                with self.changing:
                    taken, refusal = self.session.log(lines)
                all_taken += taken
                first_refusal = first_refusal or refusal
                if self.is_interrupted:
                    first_refusal = first_refusal or b"interrupted"
                    break
        self.report_log(all_taken, first_refusal)

    def report_log(self, taken: int, refusal: bytes) -> None:
        text = f"{tools.counted(taken, 'line')}; {len(self.session.kept)} kept"
        self.write(text + (f"; others: {refusal.decode()}" if refusal else ""))

    def listen(self, command: str) -> None:
        """Starts a command, each line of which is kept as it comes."""
        if self.listening:
            raise refused("a command is listened to already; log stop ends it")
        self.listening = subprocess.Popen(["sh", "-c", command], start_new_session=True,
                                          stdin=subprocess.DEVNULL, stdout=subprocess.PIPE)
        threading.Thread(target=self.take_lines, args=(self.listening,), daemon=True).start()

    def take_lines(self, source: subprocess.Popen[bytes]) -> None:
        """Keeps lines as they come. If that fails, the next command reports it."""
        try:
            for line in source.stdout or ():
                with contextlib.suppress(tools.Fault), self.changing:
                    self.session.log([line.rstrip(b"\n")])
        except (OSError, MemoryError) as error:
            self.lost = "out of memory" if tools.lacks_memory(error) else str(error)

    def stop_listening(self) -> None:
        if self.listening:
            # (the whole process group, since a shell may have started several processes)
            with contextlib.suppress(ProcessLookupError):
                os.killpg(self.listening.pid, signal.SIGTERM)
            self.listening.wait()
            self.listening = None
            self.write(f"{len(self.session.kept)} kept")


# ---- statements kept verbatim


def lines_naming(canonical: bytes, number: int, signal_name: str) -> list[int]:
    """The lines of canonical text in which statements kept verbatim name a signal of a message: after the message ID, or among the
    signals of one of its signal groups. Quoted text names none."""
    found, at = [], 1
    named = re.compile(rb"\b%d %s(?!\w)" % (number, signal_name.encode()))
    grouped = re.compile(rb"%s %d \w+ [^:]*:(?:.*[ ,])?%s(?!\w)" % (GROUPS, number, signal_name.encode()))
    for line in tools.canonical_lines(canonical):
        bare = b"".join(b'""' if it.startswith(b'"') else it for it in line)
        is_named = bare.startswith(NAMING) and named.search(bare)
        if is_named or grouped.match(bare):
            found.append(at)
        at += 1 + sum(it.count(b"\n") for it in line)
    return found


# ---- completion


def statements_of(shell: Shell, message: tools.Message) -> list[str]:
    """The statements of a message's signals as they are printed, to be edited."""
    index = -1
    found: list[str] = []
    for line in tools.canonical_lines(shell.text):
        head = line[0] if line else b""
        index += 1 if tools.MESSAGE.match(head) else 0
        if index == message.index and tools.SIGNAL.match(head):
            found.append(b"".join(line).decode("utf-8", "surrogateescape").strip())
    return found


def files_at(word: str) -> list[str]:
    folder, _, prefix = word.rpartition("/")
    before = folder + "/" if "/" in word else ""
    with contextlib.suppress(OSError):
        names = sorted(it.name + ("/" if it.is_dir() else "") for it in os.scandir(before or "."))
        return [before + it for it in names if prefix or not it.startswith(".")]
    return []


def candidates(shell: Shell, line: str) -> tuple[str, list[str]]:
    """The last word of a line so far, and its completions."""
    words = line.split(" ")
    word, prefix, count = words[0], words[-1], len(words)
    names = [it.name for it in shell.messages]
    found: list[str] = []
    if count == 1:
        found = sorted((*EDITS, *OWN))
    elif word == "show":
        found = ["diagnostics", "layout", "lines"] if count == 2 else names if words[1] == "layout" else []
    elif word in ("log", "save") and count == 2:
        found = files_at(prefix)
    elif word in EDITS and word not in SETTING and count == 2:
        found = names
    elif word == "change-signal":
        prefix = line.split(" ", 2)[2]
        found = of_message(shell, words[1], statements_of)
    elif word in EDITS and word not in SETTING and count == 3:
        found = of_message(shell, words[1], lambda _, message: message.signals)
    return prefix, [it for it in found if it.startswith(prefix)]


def of_message(shell: Shell, word: str, find: Callable[[Shell, tools.Message], list[str]]) -> list[str]:
    try:
        return find(shell, shell.message(word))
    except tools.Fault:
        return []
