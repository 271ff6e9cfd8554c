#!/usr/bin/env python3
"""Files that candesk-format formats, mends, and rejects."""

from __future__ import annotations

import os
import shutil
import sys

sys.dont_write_bytecode = True
sys.path.insert(0, os.path.dirname(os.path.realpath(__file__)))

from test_support import main  # noqa: E402
from tool_runs import ToolCase, example, is_fault, ran, read, shell, tool, written  # noqa: E402


VECTOR = b'''VERSION ""

NS_ :
\tCM_
\tEV_

BS_:

BU_: A B

BO_ 1 M: 8 A
 SG_ S : 0|8@1+ (1,0) [0|0] "" B

BO_TX_BU_ 1 : A,B;

EV_ Env: 0 [0|1] "" 0 1 DUMMY_NODE_VECTOR0 Vector__XXX;

CM_ "a; b";
CM_ EV_ Env "an ; environment";

BA_DEF_ BO_ "C" INT 0 10;

BA_DEF_REL_ BU_BO_REL_ "R" INT 0 1;

BA_DEF_DEF_ "C" 0;

BA_ "C" BO_ 1 5;

VAL_ 1 S 1 "on" ;
VAL_ Env 1 "a" ;

SIG_GROUP_ 1 G 1 : S;
'''


class Formatting(ToolCase):
    def test_format(self) -> None:
        text, form = read(example("wheel.dbc")), ran([self.program, "print", example("wheel.dbc")])[1]
        path = written(self.folder, "wheel.dbc", text + b"\n\n")
        os.chmod(path, 0o640)
        listed = tool("candesk-format", "--check", path)
        self.check_true("format: --check lists", listed == (1, path.encode() + b"\n", b"") and read(path) == text + b"\n\n", listed)
        got = tool("candesk-format", path)
        is_in_place = read(path) == form and os.stat(path).st_mode & 0o777 == 0o640
        self.check_true("format: in place", got == (0, b"", b"") and is_in_place, got)
        before = os.stat(path)
        got = tool("candesk-format", path)
        self.check_true("format: what has the form isn't touched", got[0] == 0 and os.stat(path) == before or got, got)
        self.check_true("format: --check of it", tool("candesk-format", "--check", path) == (0, b"", b""))
        bad = written(self.folder, "bad.dbc", b"BU_: Motor T\374r\n")
        got = tool("candesk-format", bad, path)
        is_reported = is_fault(got, 1, b"bad.dbc: line 1: 1 Token", b"rename it")
        self.check_true("format: refused", is_reported and read(bad) == b"BU_: Motor T\374r\n", got)
        shutil.copy(example("car.dbc"), self.folder)
        car = os.path.join(self.folder, "car.dbc")
        got = tool("candesk-format", car)
        is_reported = is_fault(got, 1, b"line 16 has a // comment")
        self.check_true("format: comments are kept", is_reported and read(car) == read(example("car.dbc")), got)
        got = tool("candesk-format", "--drop-comments", car)
        self.check_true("format: comments go", got[0] == 0 and read(car) == read(example("car.print")), got)
        empty = written(self.folder, "empty.dbc", b"")
        got = tool("candesk-format", empty)
        self.check_true("format: an empty file", is_fault(got, 1, b"written over") and read(empty) == b"", got)
        got = tool("candesk-format", os.path.join(self.folder, "no.dbc"))
        self.check_true("format: no file", is_fault(got, 3, b"no.dbc"), got)
        self.check_true("format: words", is_fault(tool("candesk-format"), 2, b"FILE"))
        link = os.path.join(self.folder, "link.dbc")
        os.symlink(written(self.folder, "linked.dbc", text), link)
        tool("candesk-format", link)
        self.check_true("format: a link stays one", os.path.islink(link) and read(link) == form)
        left = [it for it in os.listdir(self.folder) if it.startswith(".candesk-")]
        self.check_true("format: nothing is left over", not left, left)

    def test_vector(self) -> None:
        """The order of Vector's tools, in which statements kept verbatim and line ends stay as they were."""
        for what, text in (("LF", VECTOR), ("CR LF", VECTOR.replace(b"\n", b"\r\n"))):
            path = written(self.folder, "vector.dbc", text)
            got = tool("candesk-format", "--vector", "--check", path)
            self.check_true(f"format: --vector finds its form, {what}", got == (0, b"", b""), got)
            loose = text.replace(b"CM_ \"a", b"CM_  \"a").replace(b"\n\n\n", b"\n").replace(b" SG_ S :", b"   SG_ S:")
            before = ran([self.program, "print", written(self.folder, "loose.dbc", loose)]).out
            got = tool("candesk-format", "--vector", os.path.join(self.folder, "loose.dbc"))
            made = read(os.path.join(self.folder, "loose.dbc"))
            self.check_true(f"format: --vector, {what}", got == (0, b"", b"") and made == text, (got, made))
            after = ran([self.program, "print", os.path.join(self.folder, "loose.dbc")]).out
            self.check_true(f"format: --vector prints the same, {what}", before == after and b"EV_ Env : 0" in after, after)
            got = shell(path, b"rename-signal M S T\nsave\n")
            renamed = text.replace(b" SG_ S ", b" SG_ T ").replace(b"VAL_ 1 S", b"VAL_ 1 T")
            self.check_true(f"shell: saves as it was written, {what}", read(path) == renamed, (got, read(path)))
        mixed = b"BO_ 1 M: 8 A\nSIG_GROUP_ 1 G 1 : S;\nBO_TX_BU_ 1 : A;\n"
        path = written(self.folder, "mixed.dbc", mixed)
        got = tool("candesk-format", "--vector", path)
        is_reported = is_fault(got, 1, b"as Vector's tools write them")
        self.check_true("format: --vector of another order", is_reported and read(path) == mixed, got)

    def test_mending(self) -> None:
        plain = b'BU_: E F\nBO_ 1 A: 1 E\n SG_ S : 0|8@1+ (1,0) [0|0] ", " E,F\n SG_ T : 0|8@1+ (1,0) [0|0] "," E\n'
        plain += b'CM_ SG_ 1 S "a, b,";\n'
        form = ran([self.program, "print", written(self.folder, "plain.dbc", plain)])[1]
        for what, text, line in (
            ("byte order mark", b"\xef\xbb\xbf" + plain, b"byte order mark"),
            ("Ctrl-Z", plain + b"\x1a", b"Ctrl-Z"),
            ("Ctrl-Z and blanks", plain + b"\x1a\r\n", b"Ctrl-Z"),
            ("last commas", plain.replace(b"E,F\n", b"E,F,\n").replace(b'"," E\n', b'"," E , // x, y\n'), b"in line 3, 4"),
        ):
            path = written(self.folder, "mended.dbc", text)
            got = tool("candesk-format", path)
            self.check_true("refused: " + what, is_fault(got, 1, b"mended.dbc: line", b"--mend") and read(path) == text, got)
            got = tool("candesk-format", "--mend", "--drop-comments", path)
            self.check_true("mended: " + what, is_fault(got, 0, line) and read(path) == form, got)
        for what, text, line in (
            ("an umlaut", b"BU_: T\374r\n", b"rename it"),
            ("two commas", plain.replace(b"E,F", b"E,,F"), b"line 3: 2 Statement"),
            ("an exponent", plain.replace(b"[0|0]", b"[0|4.4E+481]"), b"past 400"),
            ("many digits", plain.replace(b"(1,", b"(0.%s," % (b"12" * 19)), b"over 36 digits"),
            ("inf", plain.replace(b"[0|0]", b"[0|inf]"), b"no numbers"),
            ("an open quote", b'CM_ "a;\n', b"never closed"),
            ("UTF-16", plain.decode().encode("utf-16"), b"UTF-16"),
            ("two signals of a name", plain.replace(b"SG_ T", b"SG_ S"), b"rename one"),
        ):
            path = written(self.folder, "unmended.dbc", text)
            got = tool("candesk-format", "--mend", path)
            self.check_true("not mended: " + what, is_fault(got, 1, b"unmended.dbc: line", line) and read(path) == text, got)

    def test_cut(self) -> None:
        """A file that was cut off in a list of receivers isn't completed, and is left as it was."""
        whole = b'BU_: E F\nBO_ 1 A: 1 E\n SG_ S : 0|8@1+ (1,0) [0|0] "" E,F\n SG_ T : 0|8@1+ (1,0) [0|0] "" E,F\nBO_ 2 B: 1 E\n'
        at = whole.rindex(b",F") + 1
        for what, end in (("", b""), (" at a line's end", b"\r\n"), (" and a comment", b" // F\n"), (" and Ctrl-Z", b"\n\x1a")):
            for mended, beginning in ((0, whole[:at]), (1, whole[:at].replace(b"E,F\n", b"E,F,\n"))):
                path = written(self.folder, "cut.dbc", beginning + end)
                got = tool("candesk-format", "--mend", "--drop-comments", path)
                why = b"2 Statement; the file ends in a list of receivers: it was cut off"
                is_reported = is_fault(got, 1, b"cut.dbc: line ", why)
                self.check_true("format: cut off%s, %d mended" % (what, mended), is_reported and read(path) == beginning + end, got)
                if mended == 0 and not end:
                    got = tool("candesk-format", path)
                    is_right = is_reported and read(path) == beginning and b"--mend" not in got[2]
                    self.check_true("format: cut off, without --mend", is_right, got)
                    got = tool("candesk-format", "--check", "--mend", path)
                    self.check_true("format: cut off, --check", is_fault(got, 1, b"cut off") and not got[1], got)


if __name__ == "__main__":
    main()
