"""The language server: takes the messages of an editor, and answers them one after another."""
import queue
import threading
from typing import Any, BinaryIO, Callable, Dict, List, Optional, Set, Union

from ..common.failures import Failure
from ..common.places import version
from . import hovers, layouts, protocol, scripts, texts
from .protocol import Code, Incoming, Message, Unanswered, Unframed
from .texts import Json, Kind, Text

FULL = 1
# what ends the server: its statuses
ENDED, ENDED_AT_ONCE = 0, 1
CAPABILITIES: Json = {
    "positionEncoding": "utf-16",
    "textDocumentSync": {"openClose": True, "change": FULL, "save": True},
    "hoverProvider": True,
    "completionProvider": {"triggerCharacters": [" ", "@", "<", "|", '"', "/", ":"]},
    "definitionProvider": True,
    "documentSymbolProvider": True,
}
Analysis = Union[scripts.Analysis, layouts.Analysis]


class Server:
    """The texts that are open, and what is known of them."""

    def __init__(self, given: int, written: BinaryIO):
        self.given, self.written = Incoming(given), written
        self.waiting: "queue.Queue[Optional[Message]]" = queue.Queue()
        self.cancelled: Set[Any] = set()
        self.texts: Dict[str, Text] = {}
        self.analyses: Dict[str, Analysis] = {}
        # the texts that changed since messages were sent of them
        self.changed: Dict[str, None] = {}
        self.is_ready = self.is_ending = False
        self.status: Optional[int] = None
        self.why = ""

    # messages

    def read(self) -> None:
        """Takes messages as they come, so that a request can be cancelled before its turn."""
        try:
            while True:
                body = protocol.read(self.given)
                if body is None:
                    break
                self.take(body)
        except (OSError, ValueError):
            self.why = ""
        except Unframed as unframed:
            self.why = str(unframed)
        self.waiting.put(None)

    def take(self, body: bytes) -> None:
        """Takes a message."""
        try:
            message = protocol.parsed(body)
        except Unanswered as unanswered:
            message = {"error": unanswered}
        if message.get("method") == "$/cancelRequest":
            given = message.get("params")
            if isinstance(given, dict) and isinstance(given.get("id"), (int, str)):
                self.cancelled.add(given["id"])
        else:
            self.waiting.put(message)

    def run(self) -> int:
        """Answers messages until the end; the status is 0 where the editor has asked for the end."""
        threading.Thread(target=self.read, daemon=True).start()
        while self.status is None:
            if self.waiting.empty():
                self.send_messages()
            message = self.waiting.get()
            if message is None:
                break
            self.answer(message)
        if self.why:
            raise Failure("the messages of the editor cannot be read: %s" % self.why)
        return ENDED_AT_ONCE if self.status is None else self.status

    def answer(self, message: Message) -> None:
        """Answers a message; one without an id has no answer."""
        number = message.get("id")
        try:
            if "error" in message and isinstance(message["error"], Unanswered):
                number = None
                raise message["error"]
            if "method" not in message:
                return
            result = self.result(message, number)
        except Unanswered as unanswered:
            if number is not None or "error" in message:
                error = {"code": int(unanswered.code), "message": str(unanswered)}
                protocol.write(self.written, {"id": number, "error": error})
            return
        if number is not None:
            protocol.write(self.written, {"id": number, "result": result})

    def result(self, message: Message, number: Any) -> Any:
        """What a request returns."""
        method, given = message["method"], message.get("params")
        if number is not None and number in self.cancelled:
            self.cancelled.discard(number)
            raise Unanswered(Code.CANCELLED, "the request was cancelled")
        if not self.is_ready and method not in ("initialize", "exit"):
            raise Unanswered(Code.NOT_INITIALIZED, "the first request is initialize")
        if self.is_ending and method != "exit":
            raise Unanswered(Code.INVALID_REQUEST, "after shutdown only exit may come")
        handler = HANDLERS.get(method)
        if handler is None:
            raise Unanswered(Code.METHOD_NOT_FOUND, "there is no method '%s'" % method)
        try:
            return handler(self, given if isinstance(given, dict) else {})
        except (AttributeError, KeyError, TypeError, ValueError) as error:
            raise Unanswered(Code.INVALID_PARAMS, "the parameters do not fit: %s: %s" % (type(error).__name__, error))
        except (Failure, OSError) as failure:
            raise Unanswered(Code.INTERNAL_ERROR, str(failure))

    # the session

    def initialize(self, given: Json) -> Json:
        """The first request."""
        if self.is_ready:
            raise Unanswered(Code.INVALID_REQUEST, "initialize came before")
        self.is_ready = True
        return {"capabilities": CAPABILITIES, "serverInfo": {"name": "vindaesk", "version": version()}}

    def shutdown(self, given: Json) -> None:
        """The last request."""
        self.is_ending = True

    def exit(self, given: Json) -> None:
        """The end."""
        self.status = ENDED if self.is_ending else ENDED_AT_ONCE

    def nothing(self, given: Json) -> None:
        """What needs no answer."""

    # texts

    def opened(self, given: Json) -> None:
        """A text that is opened; one of another kind is passed over."""
        it = given["textDocument"]
        kind = texts.kind_of(it["uri"]) or (Kind.SCRIPT if it.get("languageId") == "vindaesk" else None)
        if kind is not None:
            self.put(Text(it["uri"], kind, it.get("version"), str(it["text"])))

    def edited(self, given: Json) -> None:
        """A text that changed; all of it comes."""
        it = given["textDocument"]
        old = self.texts.get(it["uri"])
        whole = given["contentChanges"][-1]["text"]
        if old is not None:
            self.put(Text(old.uri, old.kind, it.get("version"), str(whole)))

    def put(self, text: Text) -> None:
        """Keeps a text. Those that may include it, or name its values, are looked at again too."""
        self.texts[text.uri] = text
        self.analyses.clear()
        self.changed.update(dict.fromkeys([text.uri, *(it.uri for it in self.texts.values() if it.folder == text.folder)]))

    def saved(self, given: Json) -> None:
        """A file that changed: what depends on it is looked at again."""
        self.analyses.clear()
        self.changed.update(dict.fromkeys(self.texts))

    def closed(self, given: Json) -> None:
        """A text that is closed has no messages any more."""
        uri = given["textDocument"]["uri"]
        if self.texts.pop(uri, None):
            self.analyses.pop(uri, None)
            self.changed.pop(uri, None)
            self.publish({"uri": uri, "diagnostics": []})

    def analysis(self, text: Text) -> Analysis:
        """What is known of a text."""
        if text.uri not in self.analyses:
            is_layout = text.kind is Kind.LAYOUT
            self.analyses[text.uri] = layouts.analysed(text) if is_layout else scripts.analysed(text)
        return self.analyses[text.uri]

    def send_messages(self) -> None:
        """Sends what is wrong with the texts that changed, as long as no other message waits."""
        while self.changed and self.waiting.empty():
            text = self.texts.get(next(iter(self.changed)))
            self.changed.pop(next(iter(self.changed)))
            if text is None:
                continue
            found = self.analysis(text)
            said = found.said if isinstance(found, layouts.Analysis) else list(scripts.diagnostics(text, found))
            version_of = {"version": text.version} if text.version is not None else {}
            self.publish({"uri": text.uri, **version_of, "diagnostics": said})

    def publish(self, given: Json) -> None:
        """Sends messages."""
        protocol.write(self.written, {"method": "textDocument/publishDiagnostics", "params": given})

    # questions

    def asked(self, given: Json) -> Optional[Text]:
        """The text of a question."""
        return self.texts.get(given["textDocument"]["uri"])

    def hover(self, given: Json) -> Optional[Json]:
        """What is said of a place."""
        text = self.asked(given)
        if text is None:
            return None
        found, place = self.analysis(text), text.place(given["position"])
        if isinstance(found, layouts.Analysis):
            return hovers.of_layout(text, found, *place)
        return hovers.of_script(text, found, *place)

    def completion(self, given: Json) -> List[Json]:
        """What may be at a place."""
        text = self.asked(given)
        if text is None:
            return []
        place = text.place(given["position"])
        if text.kind is Kind.LAYOUT:
            return layouts.completions(text, *place)
        found = self.analysis(text)
        return scripts.completions(text, found, *place) if isinstance(found, scripts.Analysis) else []

    def definition(self, given: Json) -> List[Json]:
        """Where what is named at a place is."""
        text = self.asked(given)
        if text is None:
            return []
        found, place = self.analysis(text), text.place(given["position"])
        if isinstance(found, layouts.Analysis):
            return list(layouts.definitions(text, found, *place))
        return list(scripts.definitions(text, found, *place))

    def outline(self, given: Json) -> List[Json]:
        """The views or elements of a text."""
        text = self.asked(given)
        if text is None:
            return []
        found = self.analysis(text)
        return layouts.outline(text, found) if isinstance(found, layouts.Analysis) else scripts.outline(text, found)


HANDLERS: Dict[str, Callable[[Server, Json], Any]] = {
    "initialize": Server.initialize, "initialized": Server.nothing, "shutdown": Server.shutdown, "exit": Server.exit,
    "textDocument/didOpen": Server.opened, "textDocument/didChange": Server.edited,
    "textDocument/didClose": Server.closed, "textDocument/didSave": Server.saved,
    "workspace/didChangeWatchedFiles": Server.saved, "textDocument/hover": Server.hover,
    "textDocument/completion": Server.completion, "textDocument/definition": Server.definition,
    "textDocument/documentSymbol": Server.outline,
}
