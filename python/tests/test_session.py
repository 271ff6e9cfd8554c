"""Sessions: each call, what it changes, and how it is refused."""

from __future__ import annotations

import os
import signal
import unittest
from typing import cast

import candesk
from helping import CAR, WHEEL, Case

LIGHTS = "(1.0) can0 301#0E"


class Sessions(Case):
    def setUp(self) -> None:
        super().setUp()
        self.session = candesk.Session(CAR)
        self.addCleanup(self.session.close)

    def has(self, statement: str) -> bool:
        return f"{statement}\n".encode() in self.session.text()

    def test_lines_follow_edits(self) -> None:
        self.session.log(LIGHTS)
        self.session.rename_signal("Lights", "Main", "High")
        self.assertEqual(self.session.lines(), [f"{LIGHTS} :: Lights(Dipped: off, High: on, Indicator: hazard)"])
        self.assertTrue(self.session.undo())
        self.assertEqual(self.session.lines(), [f"{LIGHTS} :: Lights(Dipped: off, Main: on, Indicator: hazard)"])
        self.assertFalse(self.session.undo())

    def test_lines_that_read_like_replies(self) -> None:
        self.session.log(["ok", "refused 20 NoMessage", b"bad command\n"])
        self.assertEqual(self.session.lines(), ["ok", "refused 20 NoMessage", "bad command"])

    def test_texts_that_read_like_replies(self) -> None:
        path = self.written("ok.dbc", 'CM_ "\nok\n\\"\nrefused 20 NoMessage\n";\nBO_ 1 A: 1 E\n')
        with candesk.Session(path) as session:
            self.assertIn(b'CM_ "\nok\n\\"\nrefused 20 NoMessage\n";\n', session.text())
            session.remove_message("A")
            self.assertNotIn(b"BO_ 1 ", session.text())

    def test_diagnostics_and_layouts(self) -> None:
        self.assertEqual(self.session.diagnostics()[1], candesk.Finding(5, "Outside", "1536 Trailer.Tilt"))
        self.session.change_message("Trailer", "Trailer", 3, "Body")
        self.assertEqual([it.word for it in self.session.diagnostics()].count("Outside"), 0)
        self.assertEqual(self.session.layout("Lights").splitlines()[0], "Message Lights 769 1")
        self.assertEqual(self.session.layout(0).splitlines()[0], "Message EngineSpeed 256 5")

    def test_edits_of_messages(self) -> None:
        self.session.add_message("BO_ 99 New: 8 Body")
        self.session.add_message("BO_ 98 First: 8 Body", 0)
        self.assertEqual(self.session.layout(0).splitlines()[0], "Message First 98 8")
        self.session.renumber("New", 97)
        self.assertTrue(self.has("BO_ 97 New: 8 Body"))
        self.session.remove_message("New")
        self.assertFalse(self.has("BO_ 97 New: 8 Body"))

    def test_edits_of_signals(self) -> None:
        self.session.add_signal("Lights", 3, 'SG_ Fog : 4|1@1+ (1,0) [0|1] "" Dash')
        self.assertTrue(self.has(' SG_ Fog : 4|1@1+ (1,0) [0|1] "" Dash'))
        self.session.change_signal("Lights", 'SG_ Fog : 5|1@1+ (1,0) [0|1] "" Dash')
        self.assertTrue(self.has(' SG_ Fog : 5|1@1+ (1,0) [0|1] "" Dash'))
        self.session.remove_signal("Lights", "Fog")
        self.assertNotIn(b"SG_ Fog", self.session.text())

    def test_edits_of_entries(self) -> None:
        self.session.set_values('VAL_ 769 Main 0 "dark" 1 "bright" ;')
        self.assertTrue(self.has('VAL_ 769 Main 0 "dark" 1 "bright" ;'))
        self.session.drop_values(769, "Main")
        self.assertNotIn(b"VAL_ 769 Main", self.session.text())
        self.session.set_mux("SG_MUL_VAL_ 770 Heat Who 0-1;")
        self.assertTrue(self.has("SG_MUL_VAL_ 770 Heat Who 0-1;"))
        self.session.drop_mux(770, "Heat")
        self.assertNotIn(b"SG_MUL_VAL_ 770 Heat", self.session.text())
        self.session.set_table('VAL_TABLE_ T 0 "z" ;')
        self.assertTrue(self.has('VAL_TABLE_ T 0 "z" ;'))
        self.session.drop_table("T")
        self.assertNotIn(b"VAL_TABLE_ T", self.session.text())
        self.session.set_attribute('BA_ "GenMsgCycleTime" BO_ 769 50;')
        self.assertTrue(self.has('BA_ "GenMsgCycleTime" BO_ 769 50;'))
        self.session.drop_attribute(769, "GenMsgCycleTime")
        self.assertFalse(self.has('BA_ "GenMsgCycleTime" BO_ 769 50;'))

    def test_refusals(self) -> None:
        before = self.session.text()
        with self.assertRaises(candesk.EditRefused) as caught:
            self.session.rename_signal("Lights", "None", "New")
        self.assertEqual((caught.exception.code, caught.exception.word), (22, "NoSignal"))
        with self.assertRaisesRegex(candesk.EditRefused, "bad command"):
            self.session.edit("frob")
        with self.assertRaises(candesk.UnknownMessage):
            self.session.remove_message("Other")
        with self.assertRaises(ValueError):
            self.session.edit("renumber 0 1\nrenumber 1 2")
        with self.assertRaises(candesk.EditRefused):
            self.session.log("x" * 4097)
        self.assertEqual((self.session.text(), self.session.undo()), (before, False))

    def test_saving(self) -> None:
        path = self.written("saved.dbc", "")
        self.session.remove_message("Lights")
        self.session.save(path)
        with candesk.load(path) as db, self.assertRaises(candesk.UnknownMessage):
            db.get_message_by_name("Lights")
        self.assertEqual(os.listdir(self.folder), ["saved.dbc"])

    def test_a_killed_program(self) -> None:
        running = self.session._talk.running
        running.send_signal(signal.SIGKILL)
        running.wait()
        with self.assertRaisesRegex(candesk.ProgramFailed, "SIGKILL"):
            self.session.lines() or self.session.diagnostics()


class Choices(Case):
    def test_the_last_lines(self) -> None:
        with candesk.Session(WHEEL, keep=2) as session:
            session.log(cast("list[str | bytes]", ["a", "b", "c"]))
            self.assertEqual(session.lines(), ["b", "c"])

    def test_truncated_frames(self) -> None:
        with candesk.Session(CAR, short=True) as session:
            session.log("(1.0) can0 101#5A3C")
            self.assertEqual(session.lines(), ["(1.0) can0 101#5A3C :: EngineHeat(Coolant: 50 degC, OilPressure: 3 bar)"])

    def test_a_rejected_text(self) -> None:
        with self.assertRaises(candesk.Rejected):
            candesk.Session(self.written("bad.dbc", "frob"))


if __name__ == "__main__":
    unittest.main()
