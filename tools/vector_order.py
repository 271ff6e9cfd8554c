"""A database in the order of sections of Vector's own tools, with statements that are kept verbatim spelled as they were written.
Some tools read statements about environment variables and transmitters only at that point and only in that spelling.

The canonical text comes from the program. Here only sections are reordered, and statements kept verbatim, which the canonical text
has last and token by token, are taken from the text that was read.
"""

from __future__ import annotations

import re
from collections.abc import Iterator

import candesk_tools as tools

# the sections, in order; a signal belongs to its message
SECTIONS = (
    b"VERSION NS_ BS_ BU_ VAL_TABLE_ BO_ BO_TX_BU_ EV_ ENVVAR_DATA_ EV_DATA_ SGTYPE_ CM_ BA_DEF_ BA_DEF_REL_ BA_DEF_SGTYPE_"
    b" BA_DEF_DEF_ BA_DEF_DEF_REL_ BA_ BA_REL_ BA_SGTYPE_ VAL_ SIG_GROUP_ SIG_VALTYPE_ SIGTYPE_VALTYPE_ SIG_TYPE_REF_ SGTYPE_VAL_"
    b" CAT_DEF_ CAT_ SG_MUL_VAL_"
).split()
SECTION_INDEX = {it: at for at, it in enumerate(SECTIONS)}
# the statements that end in no semicolon; NS_ has a list, in which keywords begin no statement
OPEN = (b"VERSION", b"NS_", b"BS_", b"BU_", b"BO_", b"SG_")
LISTED = (b"BS_", b"BU_", b"BO_")
# the statements that are always kept verbatim; CM_ and BA_ are if an environment variable follows
KEPT = frozenset(
    b"BO_TX_BU_ EV_ ENVVAR_DATA_ EV_DATA_ SIG_GROUP_ SGTYPE_ SGTYPE_VAL_ SIG_TYPE_REF_ SIGTYPE_VALTYPE_ BA_DEF_SGTYPE_ BA_SGTYPE_"
    b" BA_DEF_REL_ BA_REL_ BA_DEF_DEF_REL_ CAT_DEF_ CAT_".split()
)
WORDS = re.compile(rb"[A-Za-z_]\w*|\d\w*|[^\s\w]")


def is_kept(words: list[bytes]) -> bool:
    """Whether a statement that begins with these tokens is kept verbatim. (A quoted text is a quote.)"""
    first, *others = words
    if first == b"VAL_":
        return not others[0].isdigit()
    return first in KEPT or first in (b"CM_", b"BA_") and b"EV_" in others[:2]


def statements(text: bytes) -> Iterator[tuple[list[bytes], bytes]]:
    """The statements of a valid text that end in a semicolon, each with its tokens and as it is written."""
    return ((words, text[begin:end]) for words, begin, end in spans(text))


def spans(text: bytes) -> Iterator[tuple[list[bytes], int, int]]:
    """The statements of a valid text that end in a semicolon, each with its tokens and where it begins and ends."""
    begin, words, is_list = -1, list[bytes](), False
    for kind, start, piece in tools.pieces(text):
        if kind == "quoted" and begin >= 0:
            words.append(b'"')
        for found in WORDS.finditer(piece) if kind == "plain" else ():
            token = found.group()
            if begin >= 0:
                words.append(token)
                if token == b";":
                    yield words, begin, start + found.end()
                    begin = -1
            elif is_list and token not in LISTED:
                continue
            elif token in OPEN:
                is_list = token == b"NS_"
            elif token in SECTION_INDEX:
                begin, words = start + found.start(), [token]


def kept_statements(text: bytes) -> list[bytes]:
    """The statements of a valid text that are kept verbatim."""
    return [spelled for words, spelled in statements(text) if is_kept(words)]


def has_long_lines(text: bytes) -> bool:
    """Whether most lines of a text end in CR LF."""
    return 2 * text.count(b"\r\n") > text.count(b"\n")


def is_vector(text: bytes) -> bool:
    """Whether a valid text is written as by Vector's tools: with CR LF, or with statements kept verbatim before others."""
    kinds = [is_kept(words) for words, _ in statements(text)]
    return has_long_lines(text) or True in kinds and False in kinds[kinds.index(True) :]


def first_word(statement: bytes) -> bytes:
    found = WORDS.search(statement)
    return found.group() if found else b""


def blocks(canonical: bytes, original: bytes) -> list[tuple[int, list[bytes]]]:
    """The statements of canonical text in the order of sections, each with the index of its section and its lines' pieces."""
    lines = list(tools.canonical_lines(canonical))
    kept = kept_statements(original)
    own = lines[: len(lines) - len(kept)]
    found: list[tuple[int, list[bytes]]] = []
    for line in own:
        index = SECTION_INDEX.get(first_word(line[0]) if line[0][:1].isalpha() else b"")
        if index is None:
            found[-1][1].append(b"\n")
            found[-1][1].extend(line)
        else:
            found.append((index, list(line)))
    for spelled in kept:
        found.append((SECTION_INDEX[first_word(spelled)], [spelled]))
    # (the sort keeps the order within a section)
    return sorted(found, key=lambda it: it[0])


def written_like(canonical: bytes, original: bytes) -> bytes:
    """The text of a saved database: canonical, or in Vector's order if the text that was read is in that order."""
    return vector_text(canonical, original) if is_vector(original) else canonical


def vector_text(canonical: bytes, original: bytes) -> bytes:
    """A database in Vector's order, with the statements kept verbatim and the line ends of the text that was read."""
    end = b"\r\n" if has_long_lines(original) else b"\n"
    made: list[bytes] = []
    before, message = -1, SECTION_INDEX[b"BO_"]
    for index, pieces in blocks(canonical, original):
        if before >= 0 and (index != before or index == message):
            made.append(end)
        made.extend(end if it == b"\n" else it for it in pieces)
        made.append(end)
        before = index
    return b"".join(made)
