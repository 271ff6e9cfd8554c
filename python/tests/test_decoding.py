"""Decoding of frames and logs: values by hand, one for one, and how a decoding ends."""

from __future__ import annotations

import os
import random
import signal
import struct
import threading
import time
import unittest
from collections.abc import Iterator
from decimal import Decimal

import candesk
from helping import CAR, CAR_LOG, LORRY, LORRY_LOG, Case, has

# how many random frames are compared with canmatrix, over all databases
FRAMES = 20_000


class Frames(Case):
    def setUp(self) -> None:
        super().setUp()
        self.db = candesk.load(CAR)
        self.addCleanup(self.db.close)

    def test_values(self) -> None:
        data = bytes.fromhex("A10F64800C")
        self.assertEqual(self.db.decode_message("EngineSpeed", data), {"Speed": 1000.25, "Torque": 50, "Throttle": 80})
        exact = self.db.decode_message(0x100, data, exact=True)
        self.assertEqual(exact, {"Speed": Decimal("1000.25"), "Torque": 50, "Throttle": 80})
        self.assertIs(type(exact["Speed"]), Decimal)
        self.assertEqual(self.db.decode_message(0x100, data, scaling=False), {"Speed": 4001, "Torque": 100, "Throttle": 200})
        self.assertEqual(self.db.messages[0].decode(data)["Torque"], 50)

    def test_raw_values_have_a_sign(self) -> None:
        steering = self.db.decode_message("Steering", bytes.fromhex("FF9C0A00"), scaling=False)
        self.assertEqual(steering, {"Angle": -100, "Rate": 10})
        self.assertEqual(self.db.get_message_by_name("Steering").get_signal_by_name("Angle").raw(b"\xff\x9c\x0a\x00"), -100)

    def test_choices(self) -> None:
        self.assertEqual(self.db.decode_message("Lights", b"\x0e"), {"Dipped": "off", "Main": "on", "Indicator": "hazard"})
        self.assertEqual(self.db.decode_message("Lights", b"\x0e", decode_choices=False), {"Dipped": 0, "Main": 1, "Indicator": 3})

    def test_floats(self) -> None:
        data = struct.pack("<fHH", -12.5, 7, 0)
        self.assertEqual(self.db.decode_message("Position", data), {"Latitude": -12.5, "Age": 7})
        latitude = self.db.get_message_by_name("Position").get_signal_by_name("Latitude")
        self.assertEqual((latitude.is_float, latitude.float_value(data), latitude.float_value(data[:3])), (True, -12.5, None))

    def test_floats_of_64_bits_that_are_scaled(self) -> None:
        text = 'BO_ 1 M: 8 E\n SG_ F : 7|64@0- (0.5,1) [0|0] "" E\nSIG_VALTYPE_ 1 F : 2;\n'
        with candesk.load(self.written("double.dbc", text)) as db:
            self.assertEqual(db.decode_message("M", struct.pack(">d", 3.25)), {"F": 2.625})

    def test_what_is_not_decoded(self) -> None:
        tilt = self.db.decode_message("Trailer", bytes.fromhex("E803"))["Tilt"]
        self.assertIsNone(tilt)

    def test_truncated_frames(self) -> None:
        with self.assertRaisesRegex(candesk.DecodeError, "needs 4 bytes, and there are 2"):
            self.db.decode_message("EngineHeat", b"\x5a\x3c")
        shown = self.db.decode_message("EngineHeat", b"\x5a\x3c", allow_truncated=True)
        self.assertEqual(shown, {"Coolant": 50, "OilPressure": 3})

    def test_longer_frames(self) -> None:
        self.assertEqual(self.db.decode_message("Lights", b"\x0e" + bytes(20))["Indicator"], "hazard")
        with self.assertRaisesRegex(candesk.DecodeError, "at most 64 bytes"):
            self.db.decode_message("Lights", bytes(65))

    def test_unknown_messages(self) -> None:
        unknown: tuple[int | str, ...] = (0x7FF, 0x12345678, "Other")
        for given in unknown:
            with self.assertRaises(candesk.UnknownMessage):
                self.db.decode_message(given, b"\x00")
        with self.assertRaises(candesk.UnknownMessage):
            self.db.decode_message(0x100, bytes(5), extended=True)

    def test_a_message_that_gets_no_frames(self) -> None:
        with candesk.load(self.written("two.dbc", "BO_ 1 A: 1 E\nBO_ 1 B: 1 E\nBO_ 4294967295 C: 1 E\n")) as db:
            self.assertEqual(db.decode_message("A", b"\x00"), {})
            for name in ("B", "C"):
                with self.assertRaises(candesk.UnknownMessage):
                    db.decode_message(name, b"\x00")

    def test_a_group_by_another_source(self) -> None:
        with candesk.load(LORRY) as db:
            self.assertEqual(db.decode_message(0x18FEEE31, bytes.fromhex("7DFF8025FFFFFFFF"))["Coolant"], 85)

    def test_calls_of_several_threads(self) -> None:
        wrong: list[object] = []

        def call(torque: int) -> None:
            for _ in range(200):
                data = struct.pack("<HHB", 0, torque, 0)
                got = self.db.decode_message("EngineSpeed", data, scaling=False)
                if got["Torque"] != torque:
                    wrong.append(got)

        threads = [threading.Thread(target=call, args=(it,)) for it in range(8)]
        for it in threads:
            it.start()
        for it in threads:
            it.join()
        self.assertEqual(wrong, [])

    def test_a_killed_program_is_started_again(self) -> None:
        self.db.decode_message("Lights", b"\x0e")
        running = self.db._decoders[False].running
        running.send_signal(signal.SIGKILL)
        running.wait()
        with self.assertRaisesRegex(candesk.ProgramFailed, "SIGKILL"):
            self.db.decode_message("Lights", b"\x0e")
        self.assertEqual(self.db.decode_message("Lights", b"\x0e")["Main"], "on")


class Logs(Case):
    def setUp(self) -> None:
        super().setUp()
        self.db = candesk.load(CAR)
        self.addCleanup(self.db.close)

    def test_each_line_of_a_file(self) -> None:
        lines = list(self.db.decode(CAR_LOG))
        with open(CAR_LOG, "rb") as file:
            self.assertEqual(len(lines), len(file.read().splitlines()))
        first = lines[0]
        self.assertEqual((first.time, first.interface), (Decimal("1700000000.000100"), "can0"))
        self.assertEqual((first.id, first.extended), (256, False))
        self.assertEqual((first.kind, first.data.hex(), first.message), ("data", "a00f64800c", self.db.messages[0]))
        self.assertEqual(first.readings["Speed"], candesk.Reading(1000, "rpm", None, None))
        self.assertEqual(lines[6].readings["Lock"], candesk.Reading(1, None, "locked", None))
        self.assertEqual(lines[17].readings["Latitude"], candesk.Reading(None, None, None, "float"))
        self.assertEqual(lines[17].values()["Latitude"], 50)
        self.assertEqual([it.not_decoded for it in lines[21:27]],
                         ["remote frame", "remote frame", "error frame", "unknown id", "unknown id", "wrong size"])
        self.assertEqual((lines[26].size, lines[26].values()), (4, {}))
        self.assertEqual((lines[-1].line, lines[-1].time, lines[-1].kind), ("engine off, key out", None, None))

    def test_lines_as_they_come(self) -> None:
        """Each is answered before the next one comes."""
        came: list[str] = []

        def live() -> Iterator[str]:
            for at in range(3):
                while len(came) < at:
                    time.sleep(0.001)
                yield f"({at}.0) can0 301#0E"

        for it in self.db.decode(live()):
            came.append(str(it.time))
        self.assertEqual(came, ["0.0", "1.0", "2.0"])

    def test_what_follows_a_frame(self) -> None:
        (it,) = self.db.decode([b"(1.0) can0 301#0E T\n"])
        self.assertEqual((it.rest, it.values()["Main"]), ("T", "on"))
        self.assertIn("'interface': 'can0'", repr(it))

    def test_truncated_frames(self) -> None:
        (it,) = self.db.decode(["(1.0) can0 101#5A3C"], short=True)
        self.assertEqual(it.values(), {"Coolant": 50, "OilPressure": 3})

    def test_groups(self) -> None:
        with candesk.load(LORRY) as db:
            lines = list(db.decode(LORRY_LOG))
            self.assertEqual(lines[0].j1939, candesk.J1939(0xF004, 3, 0, None))
            self.assertEqual(lines[6].j1939, candesk.J1939(0xEA00, 6, 0xF9, 0))

    def test_a_line_that_is_too_long(self) -> None:
        given = ["(1.0) can0 301#0E", "x" * 5000, "(2.0) can0 301#0E"]
        came = []
        with self.assertRaises(candesk.LineTooLong) as caught:
            for it in self.db.decode(given):
                came.append(it)
        self.assertEqual((caught.exception.line, len(came)), (2, 1))

    def test_a_source_that_fails(self) -> None:
        def failing() -> Iterator[str]:
            yield "(1.0) can0 301#0E"
            raise RuntimeError("the bus is gone")

        with self.assertRaisesRegex(RuntimeError, "the bus is gone"):
            list(self.db.decode(failing()))

    def test_a_killed_program(self) -> None:
        self.program(f'[ "$1" = --version ] && echo "candesk 1.0.0" && exit\n[ "$1" = dump ] && exec "{candesk.program()}" "$@"\n'
                     "read -r line; kill -9 $$\n")
        with candesk.load(CAR) as db, self.assertRaisesRegex(candesk.ProgramFailed, "SIGKILL"):
            list(db.decode("(1.0) can0 301#0E" for _ in range(100_000)))

    def test_a_decoding_that_is_left(self) -> None:
        lines = self.db.decode("(1.0) can0 301#0E" for _ in range(1_000_000))
        next(lines)
        assert hasattr(lines, "close")
        lines.close()

    def test_texts_that_are_not_utf_8(self) -> None:
        text = b'BO_ 1 M: 1 E\n SG_ T : 0|8@1+ (1,0) [0|0] "\xb0C" E\nVAL_ 1 T 1 "k\xfchl" ;\n'
        with candesk.load(self.written("latin.dbc", text)) as db:
            self.assertEqual(db.messages[0].signals[0].unit, "°C")
            self.assertEqual(db.decode_message("M", b"\x01"), {"T": "kühl"})

    def test_texts_with_other_ends_of_lines(self) -> None:
        text = 'BO_ 1 M: 1 E\n SG_ T : 0|8@1+ (1,0) [0|0] "a\u2028b\x85c" E\nVAL_ 1 T 1 "x\r\ny\u2029z" ;\n'
        with candesk.load(self.written("ends.dbc", text)) as db:
            self.assertEqual(db.messages[0].signals[0].unit, "a\u2028b\x85c")
            self.assertEqual(db.decode_message("M", b"\x01"), {"T": "x\r\ny\u2029z"})
            (it,) = db.decode(["(1.0) can0 001#02"])
            self.assertEqual(it.readings["T"].unit, "a\u2028b\x85c")

    def test_a_packed_log(self) -> None:
        import gzip

        path = self.written("drive.log.gz", gzip.compress(b"(1.0) can0 301#0E\n"))
        (it,) = self.db.decode(path)
        self.assertEqual(it.values()["Main"], "on")


@unittest.skipUnless(has("can"), "python-can isn't at hand")
class PythonCan(Case):
    def test_messages(self) -> None:
        import can

        given = [
            can.Message(timestamp=1.5, arbitration_id=0x301, is_extended_id=False, data=b"\x0e", channel="can0"),
            can.Message(timestamp=2, arbitration_id=0x18DAF110, data=b"\x04\x62\x00", channel=0),
            can.Message(timestamp=3, arbitration_id=0x101, is_extended_id=False, is_remote_frame=True, dlc=4),
            can.Message(timestamp=4, arbitration_id=0x301, is_extended_id=False, is_fd=True, bitrate_switch=True, data=b"\x01"),
            can.Message(timestamp=5, arbitration_id=4, is_error_frame=True),
        ]
        with candesk.load(CAR) as db:
            lines = list(db.decode(given))
        self.assertEqual([it.kind for it in lines], ["data", "data", "remote", "fd", "error"])
        self.assertEqual((lines[0].values()["Main"], lines[0].time, lines[0].interface), ("on", Decimal("1.5"), "can0"))
        self.assertEqual((lines[1].id, lines[1].extended, lines[1].interface), (0x18DAF110, True, "0"))
        self.assertEqual(lines[3].values()["Dipped"], "on")

    def test_each_form_of_log(self) -> None:
        import can

        for name in ("drive.blf", "drive.asc", "drive.trc", "drive.csv"):
            path = os.path.join(self.folder, name)
            with can.Logger(path) as log:
                for at in range(5):
                    log.on_message_received(can.Message(timestamp=1700000000.25 + at, arbitration_id=0x301, is_extended_id=False,
                                                        data=[at], channel=0, is_rx=True))
            with self.subTest(name), candesk.load(CAR) as db:
                lines = list(db.decode(path))
                self.assertEqual([it.data for it in lines], [bytes([at]) for at in range(5)])
                self.assertEqual(lines[3].values(decode_choices=False), {"Dipped": 1, "Main": 1, "Indicator": 0})


@unittest.skipUnless(has("canmatrix"), "canmatrix isn't at hand")
class CanMatrix(Case):
    def test_values_of_random_frames(self) -> None:
        """Both decode the same values, floats among them."""
        import canmatrix.formats

        (matrix,) = canmatrix.formats.loadp(CAR).values()
        dice, floats = random.Random(1), 0
        with candesk.load(CAR) as db:
            frames = [it for it in db.messages if it.name not in ("Trailer", "Knock")]
            for _ in range(FRAMES):
                message = dice.choice(frames)
                data = dice.randbytes(message.length)
                ours = db.decode_message(message.name, data, decode_choices=False, exact=True)
                theirs = matrix.frame_by_name(message.name).decode(data)
                for name, value in ours.items():
                    expected = theirs[name].phys_value
                    if isinstance(value, float):
                        floats += 1
                        # (a float that is no number is equal to none)
                        self.assertTrue(value == float(expected) or value != value, (name, data.hex(), value, expected))
                    else:
                        self.assertEqual(value, expected, (message.name, name, data.hex()))
        self.assertGreater(floats, 100)


if __name__ == "__main__":
    unittest.main()
