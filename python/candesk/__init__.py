"""candesk from Python: databases as objects, exact decoding, pandas tables, and sessions of edits.

    import candesk

    db = candesk.load("car.dbc")
    db.decode_message("EngineSpeed", bytes.fromhex("A00F64800C"))
    db.frame("drive.blf", message="EngineSpeed")

The program candesk, which `CANDESK` names or which is on the PATH, does everything about the format.
"""

from ._database import Attribute, Database, Finding, Message, Multiplexor, Signal, load
from ._decoding import J1939, DecodedLine, Reading, Value
from ._errors import (
    DecodeError, EditRefused, Error, LineTooLong, PackageMissing, ProgramFailed, ProgramMissing, Rejected, UnknownMessage,
    UnknownSignal, WrongVersion,
)
from ._logs import line_of_message
from ._program import program
from ._session import Session, SessionTalk
from ._version import VERSION as __version__

__all__ = [
    "Attribute", "Database", "DecodeError", "DecodedLine", "EditRefused", "Error", "Finding", "J1939", "LineTooLong", "Message",
    "Multiplexor", "PackageMissing", "ProgramFailed", "ProgramMissing", "Reading", "Rejected", "Session", "SessionTalk", "Signal",
    "UnknownMessage", "UnknownSignal", "Value", "WrongVersion", "__version__", "line_of_message", "load", "program",
]
