#!/usr/bin/env python3
"""The shell: scripts, texts of all kinds, a live log, and keys in a terminal."""

from __future__ import annotations

import os
import shutil
import subprocess
import sys
import time
from typing import IO

sys.dont_write_bytecode = True
sys.path.insert(0, os.path.dirname(os.path.realpath(__file__)))

from test_support import main  # noqa: E402
from tool_runs import (  # noqa: E402
    LONGEST_LINE, PYTHONS, TOOLS, ToolCase, example, has_package, is_fault, ran, read, shell, written,
)
from tool_texts import HOSTILE, HOSTILE_LOG, LATIN  # noqa: E402


RENAMED = b"""BU_: E K
BO_ 310 E: 2 E
 SG_ K : 0|8@1+ (1,0) [0|0] "" E
 SG_ L : 8|8@1+ (1,0) [0|0] "" E
BO_ 311 F: 1 E
 SG_ K : 0|8@1+ (1,0) [0|0] "" E
CM_ SG_ 310 K "
SIG_GROUP_ 310 G 1 : K ;
";
BO_TX_BU_ 310 : E,K;
BA_DEF_REL_ BU_SG_REL_ "310 K" INT 0 9;
BA_REL_ "310 K" BU_SG_REL_ E SG_ 310 K 1;
BA_REL_ "310 K" BU_SG_REL_ E SG_ 310 L 1;
SIG_GROUP_ 310 G 1 : L K ;
SIG_GROUP_ 310 K 1 : L KK;
SIG_GROUP_ 311 G 1 : K ;
SIG_TYPE_REF_ 310 K : T;
VAL_ 310 K 1 "K" ;
"""


def read_waiting(stream: IO[bytes]) -> bytes:
    os.set_blocking(stream.fileno(), False)
    try:
        return stream.read() or b""
    finally:
        os.set_blocking(stream.fileno(), True)


class Shell(ToolCase):
    def test_shell(self) -> None:
        car = os.path.join(self.folder, "shell.dbc")
        shutil.copy(example("car.print"), car)
        script = b"list\nlog (1.0) can0 600#E803FF\nchange-message Trailer Trailer 3 Body\nshow lines\n"
        script += b"rename-signal 0x301 Main High\nundo\ndrop-values 1537 Brake\nadd-message BO_ 2147483905 Far: 1 Body\n"
        script += b"renumber Far 0x80000102\nremove-message 0x102\nsave\nquit\n"
        got = shell(car, script)
        lines = got[1].decode().splitlines()
        wanted = (
            "@11 Trailer 1536 0x600, 2 bytes: Weight Brake Tilt",
            "@13 Answer 2564485392 0x18DAF110 (29 bits), 3 bytes: Length Service",
            "1 line; 1 kept",
            "ok; 7 diagnostics, 1 went, 0 came",
            "- 5 Outside 1536 Trailer.Tilt",
            "(1.0) can0 600#E803FF :: Trailer(Weight: 20000 kg, Brake: off, Tilt: -0.01 deg)",
            "undone; 7 diagnostics, as before",
            "- 16 DanglingRow VAL_ 1537 Brake",
            "saved " + car,
        )
        missing = [it for it in wanted if it not in lines]
        self.check_true("shell: a script", got[0] == 0 and not got[2] and not missing, (got, missing))
        saved = read(example("car.print")).replace(b"BO_ 1536 Trailer: 2", b"BO_ 1536 Trailer: 3")
        saved = saved.replace(b'VAL_ 1537 Brake 0 "off" 1 "on" ;\n', b"")
        self.check_true("shell: what it saved", read(car) == saved, read(car))
        script = b"remove-signal Trailer Gear\nremove-signal Lorry X\nfly\nshow layout\nundo\nlog no.log\n"
        got = shell(car, script + b"add-signal Trailer Q SG_ x\n")
        reported = [b"refused 22 NoSignal", b"no message Lorry", b"no command fly", b"show takes", b"nothing to undo", b"no.log"]
        reported.append(b"no signal Q")
        is_told = got[0] == 1 and got[2].count(b"\n") == 7 and all(it in line for it, line in zip(reported, got[2].splitlines()))
        self.check_true("shell: refusals", is_told, got)
        got = shell(car, b"remove-message Seat\nquit\n")
        self.check_true("shell: edits that aren't saved", is_fault(got, 0, b"weren't saved"), got)
        got = shell(example("car.dbc"), b"save\n")
        self.check_true("shell: comments aren't saved over", is_fault(got, 1, b"--drop-comments"), got)
        got = shell(os.path.join(self.folder, "no.dbc"), b"")
        self.check_true("shell: no file", is_fault(got, 3, b"no.dbc"), got)
        got = shell(written(self.folder, "bad.dbc", b"BO_ x\n"), b"list\n")
        self.check_true("shell: a refused database", is_fault(got, 1, b"bad.dbc: line 1: 2 Statement"), got)
        self.check_true("shell: words", is_fault(shell(car, b"", "--keep", "0"), 2, b"from 1 to"))

    def test_shell_texts(self) -> None:
        """Sizes of messages, marks under faults, and texts that aren't UTF-8, in the file and in the history."""
        path = written(self.folder, "latin.dbc", LATIN)
        got = shell(path, b"list\n")
        self.check_true("shell: sizes", got.out == b"@0 M 2147483649 0x1 (29 bits), 8 bytes: T F\n", got)
        statement = b'SG_ T : 0|8@1+ (1,0) [0|nan] "\xb0C" E'
        got = shell(path, b"change-signal M " + statement + b"\n")
        marked = b" " + statement + b"\n" + b" " * 25 + b"^~~\n"
        is_marked = got.status == 1 and b"bad command: " in got.errors and marked in got.errors
        self.check_true("shell: a mark under a fault", is_marked, got)
        got = shell(path, b'set-values VAL_ 2147483649 T 1 "k\xfchl" 2 b ;\n')
        self.check_true("shell: what may stand there", b"found: the word b\nexpected: a quoted string\n" in got.errors, got)
        got = shell(path, b'set-values VAL_ 2147483649 T 1 "hei\xdf" ;\nsave\n')
        self.check_true("shell: bytes stay", got.status == 0 and b'"hei\xdf"' in read(path) and b'"\xb0C"' in read(path), got)
        if not has_package("prompt_toolkit"):
            self.skip_check("shell: a history of any bytes", "prompt_toolkit")
            return
        asked = "import sys, shell_history\nit = shell_history.ByteHistory(sys.argv[1])\n"
        asked += "for line in ('first', 'a\\udcb0 b'): it.store_string(line)\nprint(ascii(list(it.load_history_strings())))"
        python = next(it for it in PYTHONS if ran([it, "-c", "import prompt_toolkit"]).status == 0)
        got = ran([python, "-c", asked, os.path.join(self.folder, "history")], PYTHONPATH=TOOLS, PYTHONDONTWRITEBYTECODE="1")
        self.check_true("shell: a history of any bytes", got.out == b"['a\\udcb0 b', 'first']\n", got)

    def test_shell_signals(self) -> None:
        """Signals are put before others, last, and changed; what the shell sends is what a session takes."""
        path = written(self.folder, "signals.dbc", read(example("wheel.dbc")))
        new = b'SG_ %s : %d|1@1+ (1,0) [0|0] "" Ecu\n'
        script = b"add-signal Wheel Speed " + new % (b"First", 0) + b"add-signal 291 " + new % (b"Last", 15)
        script += b"add-signal @0 @1 " + new % (b"Second", 1) + b'change-signal Wheel SG_ Speed : 0|8@1+ (1,0) [0|0] "" Ecu\n'
        script += b'add-message Wheel BO_ 5 Front: 1 Ecu\nset-values VAL_ 291 Speed 1 "one" ;\ndrop-values Wheel Speed\n'
        got = shell(path, script + b"list\nprint\nsave\n")
        lines = got[1].splitlines()
        listed = (b"@0 Front 5 0x5, 1 byte: ", b"@1 Wheel 291 0x123, 2 bytes: First Second Speed Last")
        is_right = got[0] == 0 and all(it in lines for it in listed)
        self.check_true("shell: places of signals", is_right and b"VAL_" not in read(path), got)
        again = ran([self.program, "print", path])
        self.check_true("shell: saved in its form", again[1] == read(path) and b"".join(again[1].splitlines(True)) in got[1], again)

    def test_renaming(self) -> None:
        """After a renaming the lines of statements kept verbatim that still have the old name are reported."""
        path = written(self.folder, "renamed.dbc", RENAMED)
        got = shell(path, b"rename-signal E K New\nprint\nrename-signal E New Other\nundo\nundo\nrename-signal E L K\n")
        lines = got[1].splitlines()
        first = lines.index(b'VERSION ""')
        kept = (b"BA_REL_ \"310 K\" BU_SG_REL_ E SG_ 310 K ", b"SIG_GROUP_ 310 G 1 : L K", b"SIG_TYPE_REF_ 310 K ")
        wanted = [at - first + 1 for at, it in enumerate(lines) if it.startswith(kept)]
        reported = [it for it in lines if it.startswith(b"statements kept verbatim")]
        text = "statements kept verbatim still name K: lines %s of print" % ", ".join(map(str, wanted))
        is_right = reported == [text.encode()] and len(wanted) == 3 and lines[0].startswith(b"ok; ")
        self.check_true("shell: a renaming tells who has the old name", is_right, (got, wanted))
        self.check_true("shell: a refused renaming tells none", got[0] == 1 and got[2].count(b"\n") == 1, got[2])
        got = shell(path, b"rename-signal F K New\n")
        line = lines.index(b"SIG_GROUP_ 311 G 1 : K ;") - first + 1
        self.check_true("shell: one line has it", got[1].endswith(b"still name K: line %d of print\n" % line), got)

    def test_hostile_shell(self) -> None:
        """Texts and lines that read like replies."""
        comment = b'CM_ "\nok\nrefused 20 NoMessage\nbad command\n\\" SG_ x\nok\n'
        path = written(self.folder, "hostile.dbc", HOSTILE.replace(b'CM_ "\n', comment))
        log = written(self.folder, "hostile.log", b"ok\nbad command\n" + HOSTILE_LOG)
        form = ran([self.program, "print", path])[1]
        decoded = ran([self.program, "decode", "--short", path], read(log))[1]
        for words, kept in (((), decoded), (("--keep", "3"), b"".join(decoded.splitlines(True)[-3:]))):
            script = b"log %s\nshow lines\nprint\nremove-message V1\nundo\nshow lines\nprint\n" % log.encode()
            got = shell(path, script, "--short", *words)
            is_right = got[0] == 0 and got[1].count(kept + form) == 2 and b"undone" in got[1]
            self.check_true("shell: hostile texts" + " ".join(words), is_right, got)
        target = os.path.join(self.folder, "saved.dbc")
        got = shell(path, b"save %s\n" % target.encode())
        self.check_true("shell: saves hostile texts", got[0] == 0 and read(target) == form, got)
        long_lines = b"\n".join((b"(1.0) can0 001#01", b"y" * (LONGEST_LINE + 1), b"z" * 70000, b"(2.0) can0 002#01"))
        got = shell(path, b"log %s\nshow lines\n" % written(self.folder, "long.log", long_lines).encode())
        self.check_true("shell: long lines of a log", b"2 lines; 2 kept; others: refused 31 LongLine\n" in got[1], got)
        many = written(self.folder, "many.log", read(example("car.log")) * 300)
        got = shell(example("car.dbc"), b"log %s\nshow lines\n" % many.encode())
        wanted = ran([self.program, "decode", example("car.dbc")], read(many))[1]
        self.check_true("shell: a whole log", got[1] == b"9000 lines; 9000 kept\n" + wanted, got[1][:300])

    def test_live_shell(self) -> None:
        """Lines of a command are kept as they come."""
        words = [os.path.join(TOOLS, "candesk-shell"), example("wheel.dbc")]
        with subprocess.Popen(words, stdin=subprocess.PIPE, stdout=subprocess.PIPE) as live:
            assert live.stdin and live.stdout
            live.stdin.write(b"log |printf '(1.0) can0 123#0A01\\n(2.0) can0 123#0B01\\n'; sleep 60\n")
            live.stdin.flush()
            lines, end = b"", time.monotonic() + 10
            while lines.count(b"\n") < 2 and time.monotonic() < end:
                time.sleep(0.1)
                live.stdin.write(b"show lines\nshow diagnostics\n")
                live.stdin.flush()
                lines += read_waiting(live.stdout)
            live.stdin.write(b"log stop\nquit\n")
            live.stdin.close()
            rest = live.stdout.read()
        self.check_true("shell: a live log", b"Speed: 539 rpm" in lines + rest and b"2 kept" in rest, (lines, rest))


class Terminal:
    """The shell in a terminal of tmux."""

    def __init__(self, folder: str, words: list[str], **environment: str) -> None:
        self.tmux = ["tmux", "-L", "candesk-%d" % os.getpid(), "-f", "/dev/null"]
        settings = ["%s=%s" % it for it in environment.items()]
        line = " ".join("'%s'" % it for it in ("env", *settings, *words))
        ran([*self.tmux, "new-session", "-d", "-x", "120", "-y", "50", "-c", folder, line])

    def keys(self, *keys: str) -> None:
        ran([*self.tmux, "send-keys", *keys])

    def screen(self) -> str:
        return ran([*self.tmux, "capture-pane", "-p", "-S", "-200"])[1].decode()

    def await_text(self, text: str, seconds: int = 15) -> bool:
        end = time.monotonic() + seconds
        while text not in self.screen() and time.monotonic() < end:
            time.sleep(0.1)
        return text in self.screen()

    def is_open(self) -> bool:
        return ran([*self.tmux, "has-session"])[0] == 0

    def close(self) -> None:
        ran([*self.tmux, "kill-server"])


class Keys(ToolCase):
    def test_terminal(self) -> None:
        """A session of keys: completion by the tab key, history, a refusal, an edit, and quitting with edits that aren't saved."""
        if not shutil.which("tmux"):
            self.skipTest("tmux isn't at hand")
        home = os.path.join(self.folder, "home")
        path = written(self.folder, "terminal.dbc", read(example("car.print")))
        words = [os.path.join(TOOLS, "candesk-shell"), path]
        terminal = Terminal(self.folder, words, CANDESK=self.program, HOME=home, XDG_STATE_HOME=home)
        try:
            terminal.await_text("candesk>")
            self.check_true("terminal: begins", terminal.await_text("14 messages, 8 diagnostics"), terminal.screen())
            has_toolkit = has_package("prompt_toolkit")
            if has_toolkit:
                for keys, line in (("remove-si", ""), (" Trail", " Trailer"), (" Ti", " Trailer Tilt")):
                    terminal.keys(keys, "Tab")
                    is_completed = terminal.await_text("candesk> remove-signal" + line)
                    self.check_true("terminal: completes " + keys, is_completed, terminal.screen())
                terminal.keys("Enter")
            else:
                self.skip_check("terminal: completes", "prompt_toolkit")
                terminal.keys("remove-signal Trailer Tilt", "Enter")
            self.check_true("terminal: an edit", terminal.await_text("ok; 7 diagnostics, 1 went, 0 came"), terminal.screen())
            terminal.keys("remove-signal Trailer Tilt", "Enter")
            self.check_true("terminal: a refusal", terminal.await_text("refused 22 NoSignal"), terminal.screen())
            terminal.keys("undo", "Enter")
            self.check_true("terminal: undo", terminal.await_text("undone; 8 diagnostics, 0 went, 1 came"), terminal.screen())
            terminal.keys("C-c")
            terminal.keys("drop-values 1537 Brake", "Enter")
            self.check_true("terminal: goes on", terminal.await_text("- 16 DanglingRow"), terminal.screen())
            self.check_quitting(terminal)
            history = os.path.join(home, "candesk", "shell_history")
            if has_toolkit:
                self.check_true("terminal: history", os.path.exists(history) and b"+remove-signal Trailer Tilt" in read(history))
        finally:
            terminal.close()

    def check_quitting(self, terminal: Terminal) -> None:
        terminal.keys("quit", "Enter")
        self.check_true("terminal: warns", terminal.await_text("save, or quit once more"), terminal.screen())
        terminal.keys("Up", "Enter")
        end = time.monotonic() + 10
        while terminal.is_open() and time.monotonic() < end:
            time.sleep(0.1)
        self.check_true("terminal: ends by the line of before", not terminal.is_open(), terminal.screen())


if __name__ == "__main__":
    main()
