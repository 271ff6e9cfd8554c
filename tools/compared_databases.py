"""The differences of two databases, and the lines of a log that they decode differently."""

from __future__ import annotations

import collections
import contextlib
import itertools
import json
import subprocess
from collections.abc import Callable, Hashable, Iterable, Iterator, Mapping, Sequence
from typing import IO, Any, TypeVar

import candesk_tools as tools  # (it finds the package)

import candesk

Item = TypeVar("Item")
# the attributes of messages and signals that are compared by value, with the word for each
OF_MESSAGE = (
    ("name", "name"), ("number", "number"), ("length", "length"), ("sender", "sender"), ("pgn", "PGN"), ("comment", "comment"),
)
OF_SIGNAL = (
    ("name", "name"), ("start", "start"), ("length", "length"), ("byte_order", "byte order"), ("is_signed", "signed"),
    ("scale", "factor"), ("offset", "offset"), ("minimum", "minimum"), ("maximum", "maximum"), ("unit", "unit"),
    ("receivers", "receivers"), ("indicator", "multiplexer indicator"), ("refused", "not decoded"), ("comment", "comment"),
)
# the members of the last object that are compared item by item, by name or as lists, with the word for each
OF_REST = (("value_tables", "value table"), ("definitions", "attribute definition"), ("defaults", "attribute default"))
LISTS = (
    ("nodes", "node"), ("comments", "comment"), ("attributes", "attribute"), ("values", "value descriptions"),
    ("value_types", "value type"), ("multiplexing", "multiplexing entry"), ("kept", "statement"),
)


def shown(value: object) -> str:
    if isinstance(value, str):
        return json.dumps(value, ensure_ascii=False)
    if isinstance(value, bool):
        return "yes" if value else "no"
    if isinstance(value, (list, tuple)):
        return ",".join(str(it) for it in value) or "none"
    if isinstance(value, dict):
        return json.dumps(value, ensure_ascii=False, default=str)
    return "none" if value is None else str(value)


def paired(
    old: Sequence[Item], new: Sequence[Item], *keys: Callable[[Item], Hashable]
) -> list[tuple[Item | None, Item | None]]:
    """Pairs of old and new items, matched by the first key that finds a partner, in the order of the new ones; then the other old
    ones."""
    partners: dict[int, int] = {}
    for key in keys:
        left: dict[Hashable, collections.deque[int]] = {}
        taken = set(partners.values())
        for at, it in enumerate(old):
            if at not in taken:
                left.setdefault(key(it), collections.deque()).append(at)
        for at, it in enumerate(new):
            if at not in partners and left.get(key(it)):
                partners[at] = left[key(it)].popleft()
    taken = set(partners.values())
    pairs: list[tuple[Item | None, Item | None]] = []
    pairs += ((old[partners[at]] if at in partners else None, it) for at, it in enumerate(new))
    return pairs + [(it, None) for at, it in enumerate(old) if at not in taken]


def changes(old: object, new: object, compared: Iterable[tuple[str, str]]) -> list[str]:
    return [
        f"{word} {shown(getattr(old, name))} -> {shown(getattr(new, name))}"
        for name, word in compared if getattr(old, name) != getattr(new, name)
    ]


def changed_entries(what: str, old: Mapping[Any, object], new: Mapping[Any, object]) -> list[str]:
    """The changes of value descriptions or attributes, each by its key."""
    changed = []
    for key in dict.fromkeys([*old, *new]):
        if key not in new:
            changed.append(f"{what} {key} {shown(old[key])} removed")
        elif key not in old:
            changed.append(f"{what} {key} {shown(new[key])} added")
        elif old[key] != new[key]:
            changed.append(f"{what} {key} {shown(old[key])} -> {shown(new[key])}")
    return changed


def chain(signal: candesk.Signal) -> str:
    """The multiplexing chain of a signal, as in a layout diagram."""
    if signal.chain is None:
        return "never"
    levels = (f"{it.signal} {','.join(f'{low}-{high}' for low, high in it.ranges)}" for it in signal.chain)
    return " when ".join(levels) or "always"


def signal_changes(old: candesk.Signal, new: candesk.Signal) -> list[str]:
    changed = changes(old, new, OF_SIGNAL)
    if chain(old) != chain(new):
        changed.append(f"multiplexing {chain(old)} -> {chain(new)}")
    changed += changed_entries("value", old.choices or {}, new.choices or {})
    return changed + changed_entries("attribute", old.attributes, new.attributes)


def message_lines(old: candesk.Message, new: candesk.Message) -> Iterator[str]:
    changed = changes(old, new, OF_MESSAGE) + changed_entries("attribute", old.attributes, new.attributes)
    if changed:
        yield f"~ message {new.name} {new.number}: {', '.join(changed)}"
    bits: Callable[[candesk.Signal], object] = lambda it: (it.positions, it.indicator)  # noqa: E731
    for before, after in paired(old.signals, new.signals, lambda it: it.name, bits):
        if before is None and after is not None:
            yield f"+ signal {new.name}.{after.name}"
        elif after is None and before is not None:
            yield f"- signal {old.name}.{before.name}"
        elif before is not None and after is not None and signal_changes(before, after):
            yield f"~ signal {new.name}.{after.name}: {', '.join(signal_changes(before, after))}"


def rest_lines(old: Mapping[str, Any], new: Mapping[str, Any]) -> Iterator[str]:
    """The changes of everything outside messages."""
    for name, word in (("version", "version"), ("bit_timing", "bit timing")):
        if old[name] != new[name]:
            yield f"~ {word}: {shown(old[name])} -> {shown(new[name])}"
    for name, word in OF_REST:
        before: Mapping[str, Any] = {it["name"]: it for it in old[name]}
        after: Mapping[str, Any] = {it["name"]: it for it in new[name]}
        for key in dict.fromkeys([*after, *before]):
            if key not in before:
                yield f"+ {word} {key}"
            elif key not in after:
                yield f"- {word} {key}"
            elif before[key] != after[key]:
                yield f"~ {word} {key}: {shown(before[key])} -> {shown(after[key])}"
    for name, word in LISTS:
        for one, other in paired(old[name], new[name], shown):
            if one is None:
                yield f"+ {word} {shown(other)}"
            elif other is None:
                yield f"- {word} {shown(one)}"


def differences(old: candesk.Database, new: candesk.Database) -> Iterator[str]:
    keys: list[Callable[[candesk.Message], Hashable]] = [lambda it: (it.number, it.name), lambda it: it.number, lambda it: it.name]
    for before, after in paired(old.messages, new.messages, *keys):
        if before is None and after is not None:
            yield f"+ message {after.name} {after.number}"
        elif after is None and before is not None:
            yield f"- message {before.name} {before.number}"
        elif before is not None and after is not None:
            yield from message_lines(before, after)
    yield from rest_lines(old.rest, new.rest)


# ---- lines


@contextlib.contextmanager
def decoded(database: str, log: str) -> Iterator[IO[bytes]]:
    """The decoded lines of a log. If all were read, raises a fault if the program failed."""
    with open(log, "rb") as file, tools.naming(log):
        words = [tools.program(), "decode", "--", database]
        with subprocess.Popen(words, stdin=file, stdout=subprocess.PIPE, stderr=subprocess.PIPE) as running:
            assert running.stdout and running.stderr
            try:
                yield running.stdout
                status, errors = running.wait(), running.stderr.read()
            except BaseException:
                running.kill()
                raise
    if status:
        message = tools.error_message(errors)
        raise tools.Fault(f"{log if message == tools.LONG_LINE else database}: {message}", tools.status_of(status))


def differing_lines(old: str, new: str, log: str) -> Iterator[bytes]:
    """The lines of a log that the two decode differently, as each decodes them."""
    with decoded(old, log) as before, decoded(new, log) as after:
        for number, (one, other) in enumerate(itertools.zip_longest(before, after, fillvalue=b"\n"), 1):
            if one != other:
                yield b"line %d\n< %s> %s" % (number, one, other)
