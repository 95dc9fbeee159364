"""The preview over HTTP, on this machine alone.

Each address begins with a random key, so that only who was given it can read or write. The name in the header `Host`
has to be this machine's, so that no other name can lead a browser here; and what writes has to come from the page
itself.
"""
import hmac
import json
import os
import secrets
import socket
import socketserver
import threading
from http import HTTPStatus
from http.server import BaseHTTPRequestHandler, ThreadingHTTPServer
from typing import Any, Callable, Dict, List, Mapping, Optional, Tuple
from urllib.parse import parse_qs, urlsplit

from ..common.failures import NOT_RUN, Failure
from .preview import Preview
from .touches import ALLOWED

PAGE = os.path.join(os.path.dirname(os.path.abspath(__file__)), "preview.html")
ADDRESS = "127.0.0.1"
NAMES = ("127.0.0.1", "localhost")
MAX_BODY = 1 << 16
MAX_LINES = 256
# how long a request may take to come, and how often a page is sent a sign of life, in seconds
PATIENCE, HEARTBEAT = 20, 10
POLICY = ("default-src 'none'; img-src 'self' data:; style-src 'unsafe-inline'; script-src 'unsafe-inline'; connect-src 'self'; "
          "base-uri 'none'; form-action 'none'; frame-ancestors 'none'")
HEADERS = (
    ("Content-Security-Policy", POLICY), ("X-Content-Type-Options", "nosniff"), ("Referrer-Policy", "no-referrer"),
    ("Cross-Origin-Resource-Policy", "same-origin"), ("Cross-Origin-Opener-Policy", "same-origin"),
)


class Wrong(Exception):
    """A request that is not carried out: the status, and why."""

    def __init__(self, status: HTTPStatus, why: str):
        super().__init__(why)
        self.status = status


class Server(ThreadingHTTPServer):
    """The server of a preview."""

    daemon_threads = True
    block_on_close = False

    def __init__(self, preview: Preview, port: int):
        self.preview = preview
        self.key = secrets.token_urlsafe(16)
        try:
            super().__init__((ADDRESS, port), Handler)
        except OSError as error:
            raise Failure("the port %d cannot be used: %s" % (port, error.strerror), NOT_RUN)

    def server_bind(self) -> None:
        """Takes the port; the name of this machine is not looked up."""
        socketserver.TCPServer.server_bind(self)
        self.server_name, self.server_port = ADDRESS, self.server_address[1]

    @property
    def port(self) -> int:
        """The port, also where it was chosen by the system."""
        return int(self.server_address[1])

    def address(self) -> str:
        """Where the page is."""
        return "http://%s:%d/%s/" % (ADDRESS, self.port, self.key)

    def handle_error(self, request: Any, client_address: Any) -> None:
        """A connection that broke is no matter."""


class Handler(BaseHTTPRequestHandler):
    """One connection."""

    server: Server
    protocol_version = "HTTP/1.1"
    timeout = PATIENCE
    server_version, sys_version = "vindaesk", ""

    def log_message(self, format: str, *args: Any) -> None:
        """Requests are not listed."""

    # requests

    def do_GET(self) -> None:
        """Reads."""
        self.answer(GETS)

    def do_POST(self) -> None:
        """Writes, or asks the live program."""
        self.answer(POSTS)

    def answer(self, known: "Mapping[str, Callable[[Handler, Dict[str, str]], None]]") -> None:
        """Answers a request by its path."""
        try:
            self.check_host()
            path, given = self.parted()
            if path.startswith("picture/") and known is GETS:
                self.picture(path[len("picture/") :])
            elif path in known:
                known[path](self, given)
            else:
                raise Wrong(HTTPStatus.NOT_FOUND, "there is nothing at this address")
        except Wrong as wrong:
            self.refuse(wrong.status, str(wrong))
        except Failure as failure:
            self.refuse(HTTPStatus.CONFLICT, str(failure))
        except (BrokenPipeError, ConnectionResetError, socket.timeout):
            self.close_connection = True
        except Exception as error:
            self.refuse(HTTPStatus.INTERNAL_SERVER_ERROR, "the preview failed: %s: %s" % (type(error).__name__, error))

    def check_host(self) -> None:
        """A request by any other name than this machine's is refused."""
        allowed = ["%s:%d" % (name, self.server.port) for name in NAMES]
        if self.headers.get_all("Host", []) not in [[it] for it in allowed]:
            raise Wrong(HTTPStatus.FORBIDDEN, "the preview answers to %s alone" % " and ".join(allowed))

    def parted(self) -> Tuple[str, Dict[str, str]]:
        """The path after the key, and the values of the query."""
        parts = urlsplit(self.path)
        key, slash, path = parts.path.lstrip("/").partition("/")
        if not slash or not hmac.compare_digest(key.encode(), self.server.key.encode()):
            raise Wrong(HTTPStatus.FORBIDDEN, "the address lacks the key that vindaesk preview printed")
        return path, {name: texts[0] for name, texts in parse_qs(parts.query).items()}

    def given(self) -> Dict[str, Any]:
        """The JSON object of a request, which has to come from the page itself."""
        origins = ["http://%s:%d" % (name, self.server.port) for name in NAMES]
        if self.headers.get("Origin", origins[0]) not in origins:
            raise Wrong(HTTPStatus.FORBIDDEN, "this is for the preview's own page alone")
        if self.headers.get("Sec-Fetch-Site", "same-origin") != "same-origin":
            raise Wrong(HTTPStatus.FORBIDDEN, "this is for the preview's own page alone")
        if self.headers.get_content_type() != "application/json":
            raise Wrong(HTTPStatus.UNSUPPORTED_MEDIA_TYPE, "the body has to be JSON")
        length = self.headers.get("Content-Length", "")
        if not (length.isascii() and length.isdigit()) or int(length[:9]) > MAX_BODY or len(length) > 9:
            raise Wrong(HTTPStatus.REQUEST_ENTITY_TOO_LARGE, "the body has no length, or more than %d bytes" % MAX_BODY)
        try:
            found = json.loads(self.rfile.read(int(length)).decode())
        except (ValueError, RecursionError):
            raise Wrong(HTTPStatus.BAD_REQUEST, "the body is no JSON")
        if not isinstance(found, dict):
            raise Wrong(HTTPStatus.BAD_REQUEST, "the body is no JSON object")
        return found

    # answers

    def head(self, status: HTTPStatus, kind: str, length: Optional[int], kept: str = "no-store") -> None:
        """The head of an answer."""
        self.send_response(status)
        self.send_header("Content-Type", kind)
        self.send_header("Cache-Control", kept)
        for name, value in HEADERS:
            self.send_header(name, value)
        if length is None or status >= HTTPStatus.BAD_REQUEST:
            self.send_header("Connection", "close")
            self.close_connection = True
        if length is not None:
            self.send_header("Content-Length", "%d" % length)
        self.end_headers()

    def body(self, body: bytes, kind: str, kept: str = "no-store") -> None:
        """An answer."""
        self.head(HTTPStatus.OK, kind, len(body), kept)
        self.wfile.write(body)

    def json(self, value: object) -> None:
        """An answer in JSON."""
        self.body(json.dumps(value, ensure_ascii=False, separators=(",", ":")).encode("utf-8", "replace"),
                  "application/json; charset=utf-8")

    def refuse(self, status: HTTPStatus, why: str) -> None:
        """A refusal, in a sentence."""
        text = json.dumps({"error": why}).encode()
        self.head(status, "application/json; charset=utf-8", len(text))
        self.wfile.write(text)

    # what there is

    def page(self, given: Dict[str, str]) -> None:
        """The page."""
        with open(PAGE, "rb") as file:
            self.body(file.read(), "text/html; charset=utf-8")

    def picture(self, name: str) -> None:
        """A picture by the digest that names it, without its ending."""
        digest = name[: -len(".png")] if name.endswith(".png") else ""
        found = self.server.preview.pictures.get(digest)
        if found is None:
            raise Wrong(HTTPStatus.NOT_FOUND, "there is no such picture any more")
        self.body(found, "image/png", "private, max-age=86400, immutable")
        self.server.preview.note_sent(digest)

    def state(self, given: Dict[str, str]) -> None:
        """All of a configuration."""
        frame = given.get("frame", "0")
        if not (frame.isascii() and frame.isdigit() and len(frame) < 9):
            raise Wrong(HTTPStatus.BAD_REQUEST, "a frame is a number")
        self.json(self.server.preview.state(given.get("configuration", ""), int(frame)))

    def events(self, given: Dict[str, str]) -> None:
        """All configurations in short, each time that something is new."""
        self.head(HTTPStatus.OK, "text/event-stream; charset=utf-8", None)
        preview, version = self.server.preview, -1
        preview.note_page(1)
        try:
            while not preview.ended.is_set():
                if preview.wait(version, HEARTBEAT):
                    summary = preview.summary()
                    version = int(str(summary["version"]))
                    self.wfile.write(b"data: %s\n\n" % json.dumps(summary).encode())
                else:
                    self.wfile.write(b": here\n\n")
                self.wfile.flush()
        finally:
            preview.note_page(-1)

    def touch(self, given: Dict[str, str]) -> None:
        """Lines for the live program."""
        found = self.given()
        name, lines, frame = found.get("configuration"), found.get("lines"), found.get("frame", 0)
        are_lines = isinstance(lines, list) and 0 < len(lines) <= MAX_LINES
        if not (isinstance(name, str) and are_lines and type(frame) is int):
            raise Wrong(HTTPStatus.BAD_REQUEST, "a configuration, a frame, and 1 to %d lines are needed" % MAX_LINES)
        if not all(isinstance(it, str) and ALLOWED.fullmatch(it) for it in found["lines"]):
            raise Wrong(HTTPStatus.BAD_REQUEST, "lines are down, move, up, cancel and frame alone")
        self.json(self.server.preview.touch(name, found["lines"], frame))

    def reset(self, given: Dict[str, str]) -> None:
        """Ends the live program, so that the next touch is the first after the script."""
        self.given()
        self.server.preview.drop_live()
        self.json({})

    def edit(self, given: Dict[str, str]) -> None:
        """Writes a value back."""
        found = self.given()
        texts: List[Any] = [found.get(it) for it in ("configuration", "old", "text")]
        numbers: List[Any] = [found.get(it) for it in ("view", "place")]
        if not (all(isinstance(it, str) for it in texts) and all(type(it) is int for it in numbers)):
            raise Wrong(HTTPStatus.BAD_REQUEST, "configuration, view, place, old and text are needed")
        self.server.preview.edit(texts[0], numbers[0], numbers[1], texts[1], texts[2])
        self.json({})


GETS = {"": Handler.page, "state": Handler.state, "events": Handler.events}
POSTS = {"touch": Handler.touch, "reset": Handler.reset, "edit": Handler.edit}


def serve(server: Server) -> None:
    """Answers requests until this thread is interrupted."""
    answering = threading.Thread(target=server.serve_forever, kwargs={"poll_interval": 0.1}, daemon=True)
    server.preview.start()
    answering.start()
    try:
        while answering.is_alive():
            answering.join(1)
    finally:
        server.shutdown()
        server.server_close()
        server.preview.end()
