"""Databases as objects, against their files."""

from __future__ import annotations

import os
import unittest
from decimal import Decimal

import candesk
from helping import CAR, LORRY, WHEEL, Case


class Messages(Case):
    def test_a_message_and_its_signals(self) -> None:
        with candesk.load(CAR) as db:
            self.assertEqual([it.name for it in db.messages[:3]], ["EngineSpeed", "EngineHeat", "WheelSpeeds"])
            self.assertEqual((db.version, db.nodes[0], db.comment), ("car 1.0", "Engine", "A small car, for examples"))
            it = db.get_message_by_name("EngineSpeed")
            self.assertEqual((it.number, it.frame_id, it.is_extended_frame), (256, 256, False))
            self.assertEqual((it.length, it.senders), (5, ["Engine"]))
            self.assertEqual((it.cycle_time, it.protocol, it.pgn, it.is_multiplexed()), (10, None, None, False))
            torque = it.get_signal_by_name("Torque")
            self.assertEqual((torque.start, torque.length, torque.byte_order), (16, 12, "little_endian"))
            self.assertEqual((torque.is_signed, torque.is_float), (True, False))
            self.assertEqual((torque.scale, torque.offset, torque.unit), (Decimal("0.5"), 0, "Nm"))
            self.assertEqual((torque.minimum, torque.maximum, torque.receivers), (-1024, Decimal("1023.5"), ["Dash"]))
            self.assertEqual((torque.positions, torque.choices, torque.refused), (tuple(range(16, 28)), None, None))

    def test_motorola_order_and_value_descriptions(self) -> None:
        with candesk.load(CAR) as db:
            pedal = db.get_message_by_name("Brake").get_signal_by_name("Pedal")
            self.assertEqual((pedal.byte_order, pedal.positions), ("big_endian", (6, 7)))
            left = db.get_message_by_name("Doors").get_signal_by_name("Left")
            self.assertEqual(left.choices, {0: "closed", 1: "open", 3: "unknown"})
            self.assertIsNone(db.get_message_by_name("Doors").get_signal_by_name("Boot").unit)

    def test_multiplexing(self) -> None:
        with candesk.load(CAR) as db:
            battery = db.get_message_by_name("Battery")
            self.assertTrue(battery.is_multiplexed())
            self.assertEqual([it.name for it in battery.signals if it.is_multiplexer], ["Pack", "Kind"])
            voltage = battery.get_signal_by_name("Voltage")
            self.assertEqual((voltage.multiplexer_signal, voltage.multiplexer_ranges), ("Kind", ((1, 1), (4, 5))))
            self.assertEqual(voltage.chain, (candesk.Multiplexor("Kind", ((1, 1), (4, 5))), candesk.Multiplexor("Pack", ((0, 3),))))
            self.assertIsNone(battery.get_signal_by_name("Pack").multiplexer_signal)

    def test_identifiers(self) -> None:
        path = self.written("ids.dbc", "BO_ 16 Short: 1 E\nBO_ 2147483664 Long: 1 E\nBO_ 4294967295 None_: 1 E\n")
        with candesk.load(path) as db:
            self.assertEqual(db.get_message_by_frame_id(16).name, "Short")
            self.assertEqual(db.get_message_by_frame_id(16, extended=True).name, "Long")
            self.assertIsNone(db.get_message_by_name("None_").frame_id)
            with self.assertRaises(candesk.UnknownMessage):
                db.get_message_by_frame_id(17)
            with self.assertRaises(candesk.UnknownMessage):
                db.get_message_by_name("Other")
            with self.assertRaisesRegex(KeyError, "no signal S"):
                db.get_message_by_name("Short").get_signal_by_name("S")

    def test_a_group(self) -> None:
        with candesk.load(LORRY) as db:
            heat = db.get_message_by_name("ET1")
            self.assertEqual((heat.pgn, heat.protocol, heat.is_extended_frame), (0xFEEE, "j1939", True))
            self.assertEqual(heat.frame_id, 2566844158 - (1 << 31))


class Reports(Case):
    def test_findings(self) -> None:
        with candesk.load(CAR) as db:
            self.assertEqual(db.check()[0], candesk.Finding(10, "Float", "1281 Position.Latitude"))
            self.assertEqual(len(db.check()), 8)
        with candesk.load(WHEEL) as db:
            self.assertEqual(db.check(), [])

    def test_layouts(self) -> None:
        with candesk.load(CAR) as db:
            drawn = db.layout("Lights")
            self.assertEqual(drawn.splitlines()[:2], ["Message Lights 769 1", "   0:   .   .   .   .   2   2   1   0"])
            self.assertEqual(len(drawn.splitlines()), 5)
            self.assertEqual(db.messages[0].layout().splitlines()[0], "Message EngineSpeed 256 5")


class Refusals(Case):
    def test_a_rejected_text(self) -> None:
        path = self.written("far.dbc", 'BO_ 1 A: 1 N\n SG_ S : 0|8@1+ (1,0) [0|inf] ""\n')
        with self.assertRaises(candesk.Rejected) as caught:
            candesk.load(path)
        self.assertEqual((caught.exception.line, caught.exception.code, caught.exception.word), (2, 2, "Statement"))
        self.assertEqual(str(caught.exception), f"{path}: line 2: 2 Statement")

    def test_no_file(self) -> None:
        with self.assertRaises(FileNotFoundError):
            candesk.load("/nowhere/car.dbc")

    def test_no_program(self) -> None:
        self.program("exit 0\n")
        os.environ["CANDESK"] = "/nowhere/candesk"
        with self.assertRaisesRegex(candesk.ProgramMissing, "CANDESK"):
            candesk.load(CAR)

    def test_another_program(self) -> None:
        self.program("echo frob 1.0\n")
        with self.assertRaises(candesk.WrongVersion):
            candesk.load(CAR)

    def test_another_version(self) -> None:
        self.program("echo 'candesk 9.0.0 (0123456789ab)'\n")
        with self.assertRaisesRegex(candesk.WrongVersion, "9.0.0"):
            candesk.load(CAR)

    def test_a_version_without_the_option(self) -> None:
        self.program('[ "$1" = --version ] && echo "candesk 1.0.0" && exit\necho "candesk: usage" >&2\nexit 2\n')
        with self.assertRaises(candesk.WrongVersion):
            candesk.load(CAR)

    def test_a_killed_program(self) -> None:
        self.program('[ "$1" = --version ] && echo "candesk 1.0.0" && exit\nkill -9 $$\n')
        with self.assertRaisesRegex(candesk.ProgramFailed, "SIGKILL") as caught:
            candesk.load(CAR)
        self.assertEqual(caught.exception.status, -9)

    def test_a_program_without_memory(self) -> None:
        self.program('[ "$1" = --version ] && echo "candesk 1.0.0" && exit\necho "candesk: 90 Memory" >&2\nexit 4\n')
        with self.assertRaisesRegex(candesk.ProgramFailed, "90 Memory"):
            candesk.load(CAR)


if __name__ == "__main__":
    unittest.main()
