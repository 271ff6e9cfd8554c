"""Messages of the language server protocol on byte streams: JSON after a header with its length.

The reader of Debian's python3-pylsp-jsonrpc accepts `Content-Length` only as the first header, reads all that follows as the body
if there is none, and reads a body of any length; so the framing is done here. After a header without a length it continues at the
next length in the stream.
"""

from __future__ import annotations

import json
import re
from typing import Any, BinaryIO

Object = dict[str, Any]

# the longest body, and the longest line of a header, in bytes
MAX_BODY = 64 << 20
MAX_HEADER_LINE = 4096
# (what precedes a length on its line is the body of a message without one)
LENGTH = re.compile(rb"content-length:[ \t]*(\d{1,15})[ \t]*\r?\n$", re.IGNORECASE)
CHUNK = 1 << 16
PARSE_ERROR, INVALID_REQUEST = -32700, -32600


class BadMessage(Exception):
    """A message that can't be used. The reader continues with the next one."""

    def __init__(self, text: str, code: int) -> None:
        super().__init__(text)
        self.code = code


def skip(stream: BinaryIO, count: int) -> None:
    while count > 0:
        chunk = stream.read(min(count, CHUNK))
        if not chunk:
            return
        count -= len(chunk)


def body_length(stream: BinaryIO) -> int | None:
    """The length in the next header, or None at the end of the stream."""
    length: int | None = None
    has_lines = False
    while line := stream.readline(MAX_HEADER_LINE):
        if line not in (b"\r\n", b"\n"):
            has_lines = True
            found = LENGTH.search(line)
            length = int(found[1]) if found else length
        elif length is not None:
            return length
        elif has_lines:
            raise BadMessage("a message has no Content-Length", PARSE_ERROR)
    return None


def parsed(body: bytes) -> Object:
    """The object of a body. Bytes that aren't UTF-8 are kept as surrogates: some editors send the bytes of a file as they are."""
    try:
        message = json.loads(body.decode("utf-8", "surrogateescape"))
    except (ValueError, RecursionError) as error:
        raise BadMessage("a message isn't JSON", PARSE_ERROR) from error
    if not isinstance(message, dict):
        raise BadMessage("a message isn't an object", INVALID_REQUEST)
    return message


def read_message(stream: BinaryIO) -> Object | None:
    """The next message, or None at the end of the stream."""
    length = body_length(stream)
    if length is None:
        return None
    if length > MAX_BODY:
        skip(stream, length)
        raise BadMessage(f"a message has {length:,} bytes; at most {MAX_BODY:,} are read", INVALID_REQUEST)
    body = stream.read(length)
    return parsed(body) if len(body) == length else None


def write_message(stream: BinaryIO, message: Object) -> None:
    body = json.dumps(message, separators=(",", ":")).encode()
    stream.write(b"Content-Length: %d\r\n\r\n" % len(body) + body)
    stream.flush()
