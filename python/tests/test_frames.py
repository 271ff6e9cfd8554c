"""Tables of pandas."""

from __future__ import annotations

import sys
import unittest
import unittest.mock
import warnings
from decimal import Decimal

import candesk
from helping import CAR, CAR_LOG, DRIVE_LOG, Case, has


class Missing(Case):
    def test_what_is_not_installed(self) -> None:
        with candesk.load(CAR) as db, unittest.mock.patch.dict(sys.modules, {"pandas": None, "can": None}):
            with self.assertRaisesRegex(candesk.PackageMissing, "pandas"):
                db.frame(CAR_LOG)
            with self.assertRaisesRegex(candesk.PackageMissing, "python-can"):
                list(db.decode("drive.blf"))


@unittest.skipUnless(has("pandas"), "pandas isn't at hand")
class Tables(Case):
    def setUp(self) -> None:
        super().setUp()
        self.db = candesk.load(CAR)
        self.addCleanup(self.db.close)

    def test_a_message(self) -> None:
        table = self.db.frame(CAR_LOG, message="EngineSpeed")
        self.assertEqual((list(table.columns), table.index.name), (["Speed", "Torque", "Throttle"], "time"))
        self.assertEqual(table.values.tolist(), [[1000, 50, 80], [768.25, -8, 6]])
        self.assertEqual(list(table.index), [1700000000.0001, 1700000000.0101])
        self.assertEqual({str(it) for it in table.dtypes}, {"float64"})

    def test_exact_values(self) -> None:
        table = self.db.frame(CAR_LOG, message=0x100, exact=True)
        self.assertEqual(list(table["Speed"]), [1000, Decimal("768.25")])
        self.assertEqual(table.index[0], Decimal("1700000000.000100"))

    def test_signals_that_are_not_there(self) -> None:
        table = self.db.frame(CAR_LOG, message="Battery", signals=["Pack", "Voltage"])
        self.assertEqual(list(table["Pack"]), [2, 3, 255, 9])
        self.assertEqual(list(table["Voltage"].isna()), [False, True, True, True])
        self.assertEqual(table["Voltage"].iloc[0], 3.816)
        exact = self.db.frame(CAR_LOG, message="Battery", signals=["Heat"], exact=True)
        self.assertEqual(list(exact["Heat"]), [None, -5, None, None])

    def test_value_descriptions(self) -> None:
        self.assertEqual(list(self.db.frame(CAR_LOG, message="Doors", choices=True).iloc[0]), ["open", 3, 0, "locked"])

    def test_floats(self) -> None:
        self.assertEqual(list(self.db.frame(CAR_LOG, message="Position")["Latitude"]), [50])

    def test_all_messages(self) -> None:
        table = self.db.frame(DRIVE_LOG, signals=["EngineSpeed.Speed", "Brake.Pressure"])
        self.assertEqual(sorted(table.columns), ["Brake.Pressure", "EngineSpeed.Speed"])
        self.assertEqual((len(table), table["EngineSpeed.Speed"].count(), table["Brake.Pressure"].count()), (150, 100, 50))

    def test_a_message_that_did_not_come(self) -> None:
        table = self.db.frame([], message="Lights")
        self.assertEqual((list(table.columns), len(table)), (["Dipped", "Main", "Indicator"], 0))

    def test_unknown_names(self) -> None:
        with self.assertRaises(candesk.UnknownMessage):
            self.db.frame([], message="Other")
        with self.assertRaises(candesk.UnknownSignal):
            self.db.frame([], message="Lights", signals=["Other"])

    def test_a_log_without_frames(self) -> None:
        with warnings.catch_warnings(record=True) as caught:
            warnings.simplefilter("always")
            self.db.frame(["date Mon", "begin"], message="Lights")
        self.assertEqual(str(caught[0].message), "0 of 2 lines are frames: is this ASC, or candump without -L?")


if __name__ == "__main__":
    unittest.main()
