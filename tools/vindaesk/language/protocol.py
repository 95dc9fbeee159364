"""Messages of JSON-RPC as the Language Server Protocol frames them: each after a header with its length in bytes."""
import json
import os
from enum import IntEnum
from typing import Any, BinaryIO, Dict, Optional

MAX_MESSAGE = 1 << 26
MAX_HEADER = 1 << 12
PIECE = 1 << 16

Message = Dict[str, Any]


class Code(IntEnum):
    """The numbers of errors."""

    PARSE_ERROR = -32700
    INVALID_REQUEST = -32600
    METHOD_NOT_FOUND = -32601
    INVALID_PARAMS = -32602
    INTERNAL_ERROR = -32603
    NOT_INITIALIZED = -32002
    CANCELLED = -32800


class Unanswered(Exception):
    """A request that is not carried out: the number of the error, and why."""

    def __init__(self, code: Code, why: str):
        super().__init__(why)
        self.code = code


class Unframed(Exception):
    """What comes has no frame, so that nothing after it can be read."""


class Incoming:
    """What comes at a descriptor. A thread that waits here holds no lock, so that the process can end meanwhile."""

    def __init__(self, descriptor: int):
        self.descriptor = descriptor
        self.left = bytearray()

    def more(self) -> bool:
        """Reads on; False at the end."""
        part = os.read(self.descriptor, PIECE)
        self.left += part
        return bool(part)

    def taken(self, count: int) -> bytes:
        """The next bytes of those that are there."""
        found = bytes(self.left[:count])
        del self.left[:count]
        return found

    def line(self) -> bytes:
        """The next line, of at most some bytes."""
        while b"\n" not in self.left and len(self.left) < MAX_HEADER and self.more():
            pass
        end = self.left.find(b"\n", 0, MAX_HEADER) + 1
        return self.taken(end or MAX_HEADER)

    def read(self, count: int) -> bytes:
        """The next bytes; fewer of them at the end."""
        while len(self.left) < count and self.more():
            pass
        return self.taken(count)


def length_of(stream: Incoming) -> Optional[int]:
    """The length of the next message; None at the end of the stream."""
    length, is_begun = None, False
    while True:
        line = stream.line()
        if not line and not is_begun:
            return None
        is_begun = True
        if line in (b"\r\n", b"\n"):
            break
        name, colon, value = line.partition(b":")
        if not colon or not line.endswith(b"\n"):
            raise Unframed("a header is no line of the form Name: value")
        if name.strip().lower() == b"content-length":
            digits = value.strip()
            length = int(digits) if digits.isdigit() and len(digits) < 12 else MAX_MESSAGE + 1
    if length is None or length > MAX_MESSAGE:
        raise Unframed("a message has no Content-Length, or more than %d bytes" % MAX_MESSAGE)
    return length


def read(stream: Incoming) -> Optional[bytes]:
    """The body of the next message; None at the end of the stream."""
    length = length_of(stream)
    if length is None:
        return None
    body = stream.read(length)
    return body if len(body) == length else None


def parsed(body: bytes) -> Message:
    """A message; what is none is an error without an id."""
    try:
        found = json.loads(body.decode())
    except (ValueError, RecursionError):
        raise Unanswered(Code.PARSE_ERROR, "the message is no JSON")
    if not isinstance(found, dict) or not isinstance(found.get("method", ""), str):
        raise Unanswered(Code.INVALID_REQUEST, "the message is no request")
    return found


def write(stream: BinaryIO, message: Message) -> None:
    """Writes a message."""
    body = json.dumps({"jsonrpc": "2.0", **message}, ensure_ascii=False, separators=(",", ":")).encode("utf-8", "replace")
    stream.write(b"Content-Length: %d\r\n\r\n%s" % (len(body), body))
    stream.flush()
