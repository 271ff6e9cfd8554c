#!/usr/bin/env python3
"""Random texts in which the location of each diagnostic is known as they are made: `explain` must report it there.

`explain` has to report the line, and `explain --json` the line and the bytes of each part, and what the diagnostic is about.
`dump --at` has to report the bytes that name each message, signal and entry.

Statements of all kinds follow each other in any order, with blanks, line ends, comments and strings that look like statements
between and inside them.
"""

from __future__ import annotations

import itertools
import json
import os
import random
import re
import sys
from collections.abc import Callable, Iterator
from typing import Final, NamedTuple

sys.dont_write_bytecode = True
sys.path.insert(0, os.path.dirname(os.path.realpath(__file__)))

from test_support import DONE, HAS_DIAGNOSTICS, Ended, ProgramCase, main, put  # noqa: E402

# how many diagnostics are made, and the seed
DIAGNOSTICS: Final = int(os.environ.get("CANDESK_DIAGNOSTICS", "100000"))
SEED: Final = int(os.environ.get("CANDESK_DIAGNOSTICS_SEED", "1"))
MOST_STATEMENTS: Final = 40
# what `explain` writes before a diagnostic
LOCATED: Final = re.compile(r"^(line \d+|lines \d+ and \d+): (.*)$", re.MULTILINE)
EXTENDED: Final = 1 << 31
# words of statements, which a list of symbols and a statement kept verbatim may have as well
WORDS: Final = ("CM_", "BA_", "VAL_", "SG_", "BO_TX_BU_", "EV_", "VAL_TABLE_", "BA_DEF_", "NS_", "CAT_", "VERSION", "foo")
GAPS: Final = (" ", " ", " ", "\t", "\n", "\r\n", ' // BO_ 1 CM_ "x; \n', "//\n")
PIECES: Final = ("a", ";", "\n", "BO_ ", '\\"', "//", " ", "CM_", "\r\n", "\u00e9")


class Located(NamedTuple):
    """A token: its line, and the offsets of its first byte and after its last."""

    line: int
    begin: int
    end: int


class Found(NamedTuple):
    """A diagnostic as `check` writes it, the first tokens of the statements it is about, and its object without the remedy."""

    line: str
    starts: tuple[Located, ...]
    members: dict[str, object]

    def lines(self) -> str:
        """What `explain` has to write before it."""
        numbers = [str(start.line) for start in self.starts]
        return f"line {numbers[0]}" if len(numbers) == 1 else f"lines {numbers[0]} and {numbers[1]}"


def span(tokens: list[Located], first: int, last: int) -> dict[str, int]:
    """The range from one token to another."""
    return {"line": tokens[first].line, "from": tokens[first].begin, "to": tokens[last].end}


def found(line: str, tokens: list[Located], first: int, last: int, **members: object) -> Found:
    """A diagnostic of one statement, and the tokens of it that it is about."""
    code, word = line.split(" ")[:2]
    head = {"code": int(code), "word": word, "severity": "warning"}
    return Found(line, (tokens[0],), head | members | {"at": [span(tokens, first, last)]})


# the kinds of entries, in the order in which they are printed
ENTRIES: Final = ("VAL_TABLE_", "CM_", "BA_DEF_", "BA_DEF_DEF_", "BA_", "VAL_", "SIG_VALTYPE_", "SG_MUL_VAL_")
OBJECTS: Final = {"BU_": "node", "BO_": "message", "SG_": "signal", "EV_": "environment_variable"}


def target(words: tuple[str, ...]) -> dict[str, object] | None:
    """What an entry is for, by the words after its keyword or its name; none if candesk keeps the statement verbatim."""
    match words:
        case ("BU_", node, *_):
            return {"node": node}
        case ("BO_", number, *_):
            return {"number": int(number)}
        case ("SG_", number, signal, *_):
            return {"number": int(number), "signal": signal}
        case ("EV_", *_):
            return None
    return {}


def key(words: tuple[str, ...]) -> dict[str, object] | None:
    """The key of an entry, in the order of its members; none if candesk keeps the statement verbatim."""
    match words:
        case ("VAL_TABLE_", name, *_):
            return {"name": name}
        case ("CM_", *rest):
            return target(tuple(rest))
        case ("BA_DEF_", "BO_" | "SG_" | "EV_" | "BU_" as kind, name, *_):
            return {"object": OBJECTS[kind], "name": name[1:-1]}
        case ("BA_DEF_" | "BA_DEF_DEF_", name, *_):
            return {"name": name[1:-1]}
        case ("BA_", name, *rest):
            found_target = target(tuple(rest))
            return None if found_target is None else {"name": name[1:-1]} | found_target
        case ("VAL_" | "SIG_VALTYPE_" | "SG_MUL_VAL_", number, signal, *_) if number.isdigit():
            return {"number": int(number), "signal": signal}
    return None


def key_size(words: tuple[str, ...], members: dict[str, object]) -> int:
    """How many tokens a key has: the keyword, each member, and the keyword of what the entry is for."""
    names_target = words[0] in ("CM_", "BA_") and not members.keys().isdisjoint(("node", "number"))
    return 1 + len(members) + names_target


class Text:
    """A text in the making."""

    def __init__(self, rnd: random.Random) -> None:
        self.rnd = rnd
        self.parts: list[str] = []
        self.line = 1
        self.size = 0
        # what follows a list of symbols
        self.has_timing = False
        # the objects of `dump --at`: those of messages, and those of each kind of entry
        self.message: dict[str, object] = {}
        self.messages: list[dict[str, object]] = []
        self.entries: dict[str, list[dict[str, object]]] = {word: [] for word in ENTRIES}

    def _locate(self, words: tuple[str, ...], located: list[Located]) -> None:
        """Notes what names the parts of a statement or a signal."""
        if words[0] == "BO_":
            self.message = {"number": int(words[1]), "message": words[2]}
            self.messages.append(self.message | {"at": [span(located, 0, 2)]})
            self.messages.append(self.message | {"node": words[5], "at": [span(located, 5, 5)]})
        elif words[0] == "SG_":
            signal = self.message | {"signal": words[1]}
            self.messages.append(signal | {"at": [span(located, 0, 1)]})
            # (after the limits comes the unit)
            for i in range(words.index("]") + 2, len(words), 2):
                self.messages.append(signal | {"node": words[i], "at": [span(located, i, i)]})
        elif words[0] in self.entries:
            members = key(words)
            if members is not None:
                ranges = [span(located, 0, key_size(words, members) - 1)]
                ranges += [span(located, 3, 3)] if words[0] == "SG_MUL_VAL_" else []
                self.entries[words[0]].append({"entry": words[0]} | members | {"at": ranges})

    def locations(self) -> list[dict[str, object]]:
        """The objects of `dump --at`."""
        return self.messages + [it for word in ENTRIES for it in self.entries[word]]

    def _add(self, part: str) -> Located:
        line, begin = self.line, self.size
        self.parts.append(part)
        self.line += part.count("\n")
        self.size += len(part.encode())
        return Located(line, begin, self.size)

    def statement(self, *tokens: str) -> list[Located]:
        """Adds tokens with gaps before them."""
        located = []
        for token in tokens:
            self._add("".join(self.rnd.choice(GAPS) for _ in range(self.rnd.choice((1, 1, 1, 2, 3)))))
            located.append(self._add(token))
        self._locate(tokens, located)
        return located

    def string(self, line_ends: bool = True) -> str:
        made = '"' + "".join(self.rnd.choice(PIECES) for _ in range(self.rnd.randrange(6))) + '"'
        return made if line_ends else made.replace("\r", "").replace("\n", "")

    def some(self, choices: tuple[str, ...], most: int) -> list[str]:
        return [self.rnd.choice(choices) for _ in range(self.rnd.randint(0, most))]

    def whole(self) -> str:
        self._add("".join(self.rnd.choice(GAPS) for _ in range(self.rnd.randrange(3))))
        return "".join(self.parts)


# ---- statements, each with the diagnostics that it has for a number of its own


def symbols(text: Text, number: int) -> Iterator[Found]:
    text.statement("NS_", ":", *text.some(WORDS, 5))
    if text.has_timing:
        text.statement("BU_", ":", "VERSION")
    else:
        text.has_timing = True
        text.statement("BS_", ":")
    yield from ()


def message(text: Text, number: int) -> Iterator[Found]:
    """Unknown nodes of a message and its signals."""
    own = {"number": EXTENDED + number, "message": f"M{number}"}
    head = f"{EXTENDED + number} M{number}"
    tokens = text.statement("BO_", str(EXTENDED + number), f"M{number}", ":", "8", f"Z{number}")
    yield found(f"13 UnknownNode {head} Z{number}", tokens, 5, 5, **own, node=f"Z{number}")
    for j in range(text.rnd.randint(0, 3)):
        tag = ("M",) if j == 0 else text.rnd.choice(((), ("m0",), ("m12",)))
        nodes = ("Vector__XXX", ",") if text.rnd.random() < 0.3 else ()
        tokens = text.statement(*_signal(f"S{j}", tag, j), text.string(line_ends=False), *nodes, f"Y{number}_{j}")
        last = len(tokens) - 1
        yield found(f"13 UnknownNode {head}.S{j} Y{number}_{j}", tokens, last, last, **own, signal=f"S{j}", node=f"Y{number}_{j}")


def _signal(name: str, tag: tuple[str, ...], start: int, length: int = 1, factor: tuple[str, ...] = ("1",)) -> tuple[str, ...]:
    bits = (str(start), "|", str(length), "@", "1", "+")
    return ("SG_", name, *tag, ":", *bits, "(", *factor, ",", "-", "1", ")", "[", "+", "0", "|", "0", "]")


def overlapping(text: Text, number: int) -> Iterator[Found]:
    """Two signals of the same bit."""
    text.statement("BO_", str(EXTENDED + number), f"O{number}", ":", "8", "Vector__XXX")
    first, second = (text.statement(*_signal(name, (), 3), '""', "Vector__XXX") for name in ("A", "B"))
    members = {"code": 6, "word": "Overlap", "severity": "warning", "number": EXTENDED + number, "message": f"O{number}"}
    pair = {"signal": "A", "other": "B", "at": [span(first, 3, 7), span(second, 3, 7)]}
    yield Found(f"6 Overlap {EXTENDED + number} O{number}.A O{number}.B", (first[0], second[0]), members | pair)


def signals(text: Text, number: int) -> Iterator[Found]:
    """Signals outside their message, of too many bits, of an impossible scale and without a multiplexor, which are all found."""
    text.statement("BO_", str(EXTENDED + number), f"P{number}", ":", "40", "Vector__XXX")
    own = {"number": EXTENDED + number, "message": f"P{number}"}
    head = f"{EXTENDED + number} P{number}"
    rest = ('""', "Vector__XXX")
    outside = text.statement(*_signal("Far", (), 319, 2), *rest)
    yield found(f"5 Outside {head}.Far", outside, 3, 7, **own, signal="Far")
    lost = text.statement(*_signal("Lost", ("m3",), 0), *rest)
    yield found(f"7 NoSwitch {head}.Lost", lost, 2, 2, **own, signal="Lost")
    long = text.statement(*_signal("Long", (), 8, 65), *rest)
    yield found(f"11 Long {head}.Long", long, 5, 5, **own | {"signal": "Long", "severity": "information"})
    odd = text.statement(*_signal("Odd", (), 80, 8, ("-", "1e-400")), *rest)
    yield found(f"12 Scale {head}.Odd", odd, 10, 14, **own, signal="Odd")


def message_comment(text: Text, number: int) -> Iterator[Found]:
    tokens = text.statement("CM_", "BO_", str(number), text.string(), ";")
    yield found(f"16 DanglingRow CM_ BO_ {number}", tokens, 0, 2, entry="CM_", number=number)


def node_comment(text: Text, number: int) -> Iterator[Found]:
    tokens = text.statement("CM_", "BU_", f"X{number}", text.string(), ";")
    yield found(f"16 DanglingRow CM_ BU_ X{number}", tokens, 0, 2, entry="CM_", node=f"X{number}")


def signal_comment(text: Text, number: int) -> Iterator[Found]:
    tokens = text.statement("CM_", "SG_", str(number), "S", text.string(), ";")
    yield found(f"16 DanglingRow CM_ SG_ {number} S", tokens, 0, 3, entry="CM_", number=number, signal="S")


def values(text: Text, number: int) -> Iterator[Found]:
    tokens = text.statement("VAL_", str(number), "S", "1", text.string(), "-", "2", text.string(), ";")
    yield found(f"16 DanglingRow VAL_ {number} S", tokens, 0, 2, entry="VAL_", number=number, signal="S")


def described(text: Text, number: int) -> Iterator[Found]:
    """Value descriptions that the signal can't have, and one of a value that has one already."""
    own = {"number": EXTENDED + number, "message": f"V{number}", "signal": "S"}
    head = f"{EXTENDED + number} V{number}.S"
    text.statement("BO_", str(EXTENDED + number), f"V{number}", ":", "8", "Vector__XXX")
    text.statement(*_signal("S", (), 0, 2), '""', "Vector__XXX")
    numbers = (("1",), ("+", "7"), ("-", "3"), ("1.0",))
    tokens = text.statement("VAL_", str(EXTENDED + number), "S", *(it for n in numbers for it in (*n, text.string())), ";")
    yield found(f"14 ValueOutOfRange {head} 7", tokens, 5, 6, **own, value=7)
    yield found(f"14 ValueOutOfRange {head} -3", tokens, 8, 9, **own, value=-3)
    yield found(f"15 RepeatedValue {head} 1", tokens, 11, 11, **own, value=1)


def float_type(text: Text, number: int) -> Iterator[Found]:
    tokens = text.statement("SIG_VALTYPE_", str(number), "S", ":", "1", ";")
    yield found(f"16 DanglingRow SIG_VALTYPE_ {number} S", tokens, 0, 2, entry="SIG_VALTYPE_", number=number, signal="S")


def float_signal(text: Text, number: int) -> Iterator[Found]:
    own = {"number": EXTENDED + number, "message": f"F{number}", "signal": "S", "severity": "information"}
    text.statement("BO_", str(EXTENDED + number), f"F{number}", ":", "8", "Vector__XXX")
    text.statement(*_signal("S", (), 0, 32), '""', "Vector__XXX")
    colon = text.rnd.choice(((), (":",)))
    tokens = text.statement("SIG_VALTYPE_", str(EXTENDED + number), "S", *colon, "1", ";")
    kind = 3 + len(colon)
    yield found(f"10 Float {EXTENDED + number} F{number}.S", tokens, kind, kind, **own)


def multiplexing(text: Text, number: int) -> Iterator[Found]:
    tokens = text.statement("SG_MUL_VAL_", str(number), "S", "Q", "1", "-", "2", ",", "3", "-", "3", ";")
    yield found(f"16 DanglingRow SG_MUL_VAL_ {number} S", tokens, 0, 2, entry="SG_MUL_VAL_", number=number, signal="S")


def bad_multiplexing(text: Text, number: int) -> Iterator[Found]:
    """An entry that names no multiplexor."""
    own = {"number": EXTENDED + number, "message": f"B{number}", "signal": "S"}
    text.statement("BO_", str(EXTENDED + number), f"B{number}", ":", "8", "Vector__XXX")
    text.statement(*_signal("Q", ("M",), 0), '""', "Vector__XXX")
    text.statement(*_signal("N", (), 1), '""', "Vector__XXX")
    text.statement(*_signal("S", ("m1",), 2), '""', "Vector__XXX")
    tokens = text.statement("SG_MUL_VAL_", str(EXTENDED + number), "S", "N", "1", "-", "2", ";")
    yield found(f"8 BadMuxRow {EXTENDED + number} B{number}.S", tokens, 3, 3, **own)


def identifier(text: Text, number: int) -> Iterator[Found]:
    """A number of more than 11 bits without bit 31, which two messages have."""
    own = {"number": number}
    for name in (f"I{number}", f"J{number}"):
        tokens = text.statement("BO_", str(number), name, ":", "8", "Vector__XXX")
        yield found(f"1 BadIdentifier {number} {name}", tokens, 1, 1, **own, message=name)
        yield found(f"2 SharedIdentifier {number} {name}", tokens, 1, 1, **own, message=name)


def shared_name(text: Text, number: int) -> Iterator[Found]:
    for n in (EXTENDED + number, EXTENDED + number + (1 << 20)):
        tokens = text.statement("BO_", str(n), f"N{number}", ":", "8", "Vector__XXX")
        yield found(f"3 SharedName {n} N{number}", tokens, 2, 2, number=n, message=f"N{number}")


def message_attribute(text: Text, number: int) -> Iterator[Found]:
    value = text.rnd.choice((("1",), (text.string(),), ("-", "2")))
    tokens = text.statement("BA_", f'"n{number}"', "BO_", str(number), *value, ";")
    key = {"entry": "BA_", "name": f"n{number}", "number": number}
    yield found(f'16 DanglingRow BA_ "n{number}" BO_ {number}', tokens, 0, 3, **key)
    yield found(f'18 UnknownAttribute BA_ "n{number}" BO_ {number}', tokens, 0, 3, **key)


def attribute(text: Text, number: int) -> Iterator[Found]:
    tokens = text.statement("BA_", f'"n{number}"', text.rnd.choice(("1", text.string(), "+3")), ";")
    yield found(f'18 UnknownAttribute BA_ "n{number}"', tokens, 0, 1, entry="BA_", name=f"n{number}")


def default(text: Text, number: int) -> Iterator[Found]:
    tokens = text.statement("BA_DEF_DEF_", f'"d{number}"', "1", ";")
    yield found(f'18 UnknownAttribute BA_DEF_DEF_ "d{number}"', tokens, 0, 1, entry="BA_DEF_DEF_", name=f"d{number}")


def tables(text: Text, number: int) -> Iterator[Found]:
    text.statement("VAL_TABLE_", f"T{number}", "1", text.string(), ";")
    tokens = text.statement("VAL_TABLE_", f"T{number}", ";")
    yield found(f"17 RepeatedRow VAL_TABLE_ T{number}", tokens, 0, 1, entry="VAL_TABLE_", name=f"T{number}")


def definitions(text: Text, number: int) -> Iterator[Found]:
    text.statement("BA_DEF_", text.rnd.choice(("BO_", "EV_", "SG_")), f'"e{number}"', "INT", "0", "5", ";")
    tokens = text.statement("BA_DEF_", f'"e{number}"', "ENUM", text.string(), ",", '"b"', ";")
    yield found(f'17 RepeatedRow BA_DEF_ "e{number}"', tokens, 0, 1, entry="BA_DEF_", name=f"e{number}")


def kept(text: Text, number: int) -> Iterator[Found]:
    word = text.rnd.choice(("EV_", "BO_TX_BU_", "SIG_GROUP_", "CAT_", "BA_REL_", "BA_DEF_REL_"))
    text.statement(word, *text.some(("BO_", "CM_", '"; BO_"', "5", "x", ":", ",", "SG_", "BA_"), 6), ";")
    yield from ()


def kept_values(text: Text, number: int) -> Iterator[Found]:
    text.statement("VAL_", "Env", "BO_", "1", text.string(), ";")
    yield from ()


def kept_comment(text: Text, number: int) -> Iterator[Found]:
    text.statement("CM_", "EV_", "x", text.string(), "BA_", ";")
    yield from ()


def kept_attribute(text: Text, number: int) -> Iterator[Found]:
    text.statement("BA_", text.string(), "EV_", "x", "CM_", "BO_", ";")
    yield from ()


STATEMENTS: Final[tuple[Callable[[Text, int], Iterator[Found]], ...]] = (
    symbols, message, message, overlapping, signals, message_comment, node_comment, signal_comment, values, described, float_type,
    float_signal, multiplexing, bad_multiplexing, identifier, shared_name, message_attribute, attribute, default, tables,
    definitions, kept, kept_values, kept_comment, kept_attribute,
)  # fmt: skip


def made(rnd: random.Random) -> tuple[str, list[Found], list[dict[str, object]]]:
    """A text, its diagnostics, and the objects of its locations."""
    text = Text(rnd)
    if rnd.random() < 0.5:
        text.statement("VERSION", text.string())
    first = 100_000
    count = rnd.randint(1, MOST_STATEMENTS)
    all_found = [it for k in range(count) for it in rnd.choice(STATEMENTS)(text, first + k)]
    return text.whole(), all_found, text.locations()


class Locations(ProgramCase):
    def test_random_texts(self) -> None:
        rnd, count = random.Random(SEED), 0
        while count < DIAGNOSTICS:
            text, all_found, locations = made(rnd)
            path = put(self.folder, "f.dbc", text.encode())
            self.check_lines(all_found, text, self.ended("explain", path))
            self.check_objects(all_found, text, self.ended("explain", "--json", path))
            self.check_locations(locations, text, self.ended("dump", "--at", path))
            count += len(all_found)

    def check_lines(self, all_found: list[Found], text: str, ended: Ended) -> None:
        """Whether `explain` reports each diagnostic in its line, and no other."""
        status, output, errors = ended
        reported: dict[str, str] = {subject: lines for lines, subject in LOCATED.findall(output.decode())}
        for it in all_found:
            self.check_equal(f"{it.line} of a text of seed {SEED}", reported.get(it.line), it.lines())
        others = sorted(reported.keys() - {it.line for it in all_found})
        if others or errors or status != (HAS_DIAGNOSTICS if all_found else DONE):
            self.check(f"a text of seed {SEED}", f"{others[:3]}, status {status}, {errors[:200]!r}:\n{text}")

    def check_objects(self, all_found: list[Found], text: str, ended: Ended) -> None:
        """Whether `explain --json` writes the object of each diagnostic, and no other."""
        status, output, errors = ended
        objects = [json.loads(line) for line in output.decode().splitlines()]
        remedies = [it.pop("remedy", "") for it in objects]
        written = sorted(json.dumps(it) for it in objects)
        wanted = sorted(json.dumps(it.members) for it in all_found)
        if written != wanted or not all(remedies) or errors or status != (HAS_DIAGNOSTICS if all_found else DONE):
            missing = [it for it in wanted if it not in written]
            fault = f"{missing[:2]} not in {written[:3]}, status {status}, {errors[:200]!r}:\n{text}"
            self.check(f"the objects of a text of seed {SEED}", fault)

    def check_locations(self, locations: list[dict[str, object]], text: str, ended: Ended) -> None:
        """Whether `dump --at` writes these objects in this order."""
        status, output, errors = ended
        written = output.decode().splitlines()
        wanted = [json.dumps(it, separators=(",", ":")) for it in locations]
        if written != wanted or errors or status != DONE:
            first = next(((a, b) for a, b in itertools.zip_longest(written, wanted) if a != b), None)
            self.check(f"the locations in a text of seed {SEED}", f"{first}, status {status}, {errors[:200]!r}:\n{text}")


if __name__ == "__main__":
    main()
