"""Tries tools/language as an editor does: by messages over its standard streams."""
import contextlib
import json
import os
import shutil
import subprocess
from typing import Any, Dict, Iterator, List, Tuple

from running import SECONDS, TOP, Checks, named, need
from tools import EXAMPLES, Place, place, unlike

WRONG = """window 100 50
ad root View 1 1
add root FrameLayout match match
text v1 \U0001f600\U0001f600 a\\tb
add v1 TextView wrap wrap
text v2 é\U0001f600 \\x
gravity v1 self left|rigth
size v9 10 20
frame # once
add v1 View 1
include other.lines
"""
OTHER = "id v2 @id/send\nid v2 @id/sendd\n"
IDS = "app:id/send = 0x7f080002\napp:color/back = 0x7f050001\n"
# the messages of WRONG: line, first and last column in units of UTF-16, and how they begin
SAID = [
    (1, 0, 2, "no line begins with 'ad'"), (3, 14, 16, "'\\\\t' does not fit"), (5, 12, 14, "'\\\\x' does not fit"),
    (6, 21, 26, "'rigth' does not fit; did you mean 'right'?"), (7, 5, 7, "no view has this number"),
    (8, 6, 7, "'#' is one word too many"), (9, 13, 13, "a word is missing"), (10, 0, 19, "other.lines:2:7: 31 Syntax"),
]
LAYOUT = """<LinearLayout xmlns:android="http://schemas.android.com/apk/res/android"
    android:layout_width="match_parent" android:layout_height="match_parnt">
    <!-- \U0001f600 --><TextView android:id="@+id/send" android:layout_width="12"
        android:layout_height="wrap_content" android:layout_widht="1dp" android:text="@string/title" />
</LinearLayout>
"""
# what Neovim is to print: the first message, and what it shows of the third line
ASKED = """
vim.defer_fn(function() vim.cmd("qa!") end, 50000)
vim.wait(40000, function() return #vim.diagnostic.get(0) > 0 end, 50)
for _, it in ipairs(vim.diagnostic.get(0)) do print(it.lnum, it.col, it.end_col, it.message, "\\n") end
local at = {textDocument = vim.lsp.util.make_text_document_params(), position = {line = 2, character = 1}}
for _, it in pairs(vim.lsp.buf_request_sync(0, "textDocument/hover", at, 20000)) do print(it.result.contents.value) end
vim.cmd("qa!")
"""


class Client:
    """An editor."""

    def __init__(self, started: "subprocess.Popen[bytes]"):
        self.started = started
        assert started.stdin is not None and started.stdout is not None
        self.into, self.out = started.stdin, started.stdout
        self.count = 0
        self.left: List[Any] = []

    def send(self, message: Any) -> None:
        """Sends a message."""
        body = message if isinstance(message, bytes) else json.dumps({"jsonrpc": "2.0", **message}).encode()
        self.into.write(b"Content-Length: %d\r\n\r\n%s" % (len(body), body))
        self.into.flush()

    def receive(self) -> Any:
        """The next message of the server."""
        head = self.out.readline()
        if not head.startswith(b"Content-Length: ") or self.out.readline() != b"\r\n":
            raise AssertionError("the frame of a message begins with %r" % head)
        return json.loads(self.out.read(int(head.split()[1])).decode())

    def notify(self, method: str, given: Any = None) -> None:
        """Sends a message that has no answer."""
        self.send({"method": method, "params": given})

    def ask(self, method: str, given: Any = None) -> Any:
        """The result of a request, or its error."""
        self.count += 1
        self.send({"id": self.count, "method": method, "params": given})
        while True:
            found = self.receive()
            if found.get("id") == self.count:
                return found.get("error") or found["result"]
            self.left.append(found)

    def messages(self, uri: str) -> List[Any]:
        """The next messages of a text."""
        while True:
            found = self.left.pop(0) if self.left else self.receive()
            if found.get("method") == "textDocument/publishDiagnostics" and found["params"]["uri"] == uri:
                return list(found["params"]["diagnostics"])

    def open(self, path: str, text: str, version: int = 1) -> str:
        """Opens a text; returns its address."""
        uri = "file://" + path
        self.notify("textDocument/didOpen", {"textDocument": {"uri": uri, "languageId": "x", "version": version, "text": text}})
        return uri

    def at(self, what: str, uri: str, line: int, character: int) -> Any:
        """What the server answers of a place."""
        return self.ask("textDocument/" + what, {
            "textDocument": {"uri": uri}, "position": {"line": line, "character": character}})


@contextlib.contextmanager
def client(it: Place, is_begun: bool = True) -> Iterator[Client]:
    """A server, for as long as it is used."""
    with it.start("tools/language") as started:
        found = Client(started)
        try:
            if is_begun:
                found.ask("initialize", {"processId": None, "rootUri": None, "capabilities": {}})
                found.notify("initialized", {})
            yield found
        finally:
            started.kill()


def span(found: Any) -> Tuple[int, int, int]:
    """Line, first and last column of a range."""
    return found["start"]["line"], found["start"]["character"], found["end"]["character"]


def says_what_check_says() -> str:
    """Messages of a script are those of check, with ranges in units of UTF-16; they follow what is typed."""
    with place() as it:
        it.put("a.script", WRONG)
        it.put("other.lines", OTHER)
        it.put("ids.txt", IDS)
        checked = it.call("check", "a.script")[1].decode().splitlines()
        with client(it) as editor:
            uri = editor.open(os.path.join(it.folder, "a.script"), WRONG)
            said = editor.messages(uri)
            found = [(*span(one["range"]), one["message"]) for one in said]
            for wanted, one in zip(SAID, found):
                if wanted[:3] != one[:3] or not one[3].startswith(wanted[3].replace("\\\\", "\\")):
                    return "%s in place of %s" % (one, wanted)
            texts = [line.split(": ", 2)[2] for line in checked if not line.startswith("other")]
            if len(found) != len(SAID) or texts != [one["message"] for one in said[:-1]] or len(texts) + 1 != len(checked):
                return "check says %s" % checked
            editor.notify("textDocument/didChange", {"textDocument": {"uri": uri, "version": 2},
                          "contentChanges": [{"text": "window 1 1\n"}]})
            if editor.messages(uri) != []:
                return "of a script that is right now it has messages"
            editor.notify("textDocument/didClose", {"textDocument": {"uri": uri}})
            return "" if editor.messages(uri) == [] else "a text that was closed has messages"


def says_what_axml_says() -> str:
    """Messages of a source are those of axml, at the values; and one of broken XML is at its place."""
    with place() as it:
        with client(it) as editor:
            uri = editor.open(os.path.join(it.folder, "a.xml"), LAYOUT)
            found = [(*span(one["range"]), one["severity"], one["message"].split(";")[0].split(":", 2)[-1].strip())
                     for one in editor.messages(uri)]
            wanted = [
                (1, 63, 74, 1, "'match_parnt' does not fit"), (2, 70, 72, 1, "'12' does not fit"),
                (3, 86, 99, 1, "the list of ids has no string/title"), (3, 67, 70, 2, "layout_widht is passed over"),
            ]
            for one, other in zip(found, wanted):
                if one[:4] != other[:4] or not one[4].startswith(other[4]):
                    return "%s in place of %s" % (one, other)
            if len(found) != len(wanted):
                return "there are %s" % found
            editor.notify("textDocument/didChange", {"textDocument": {"uri": uri, "version": 2},
                          "contentChanges": [{"text": "<a>\n  <b></a>"}]})
            broken = [(*span(one["range"]), one["message"]) for one in editor.messages(uri)]
            return "" if broken and broken[0][0] == 1 and "mismatched tag" in broken[0][3] else "of broken XML: %s" % broken


def offers() -> str:
    """What may be at a place: lines, words, views, ids, files, attributes and values."""
    script = "window 9 9\nadd root FrameLayout match match\nadd v1 TextView 5 5\ntext v2 Hi\nid v2 @7f080002\nframe\n"
    lines = ["", "ad", "add ", "add v1 Text", "size v2 ", "gravity v2 self ", "inflate ", "rule v2 left_of ", "hook v2 ", "hook v2 size v2 ",
             "include ", "text v2 ", "  orient v1 ", "bg @"]
    wanted = ["window", "add", "root", "TextView", "match", "center", "a.xml", "@id/send", "bg", "wrap", "other.lines", None,
              "vertical", "@id/send"]
    with place() as it:
        it.put("a.xml", LAYOUT)
        it.put("other.lines", OTHER)
        it.put("ids.txt", IDS)
        with client(it) as editor:
            uri = editor.open(os.path.join(it.folder, "a.script"), script + "\n".join(lines))
            for number, (line, label) in enumerate(zip(lines, wanted), script.count("\n")):
                found = editor.at("completion", uri, number, len(line))
                labels = [one["label"] for one in found]
                if (label not in labels) if label else labels:
                    return "%r: %s" % (line, labels)
            found = editor.at("completion", uri, 9, 11)
            first: Any = next((one for one in found if one["label"] == "TextView"), {})
            if span(first["textEdit"]["range"]) != (9, 7, 11):
                return "the range of an offer is %s" % first
            layout = LAYOUT.replace('"match_parnt"', '"m"').replace("/>", "\n        an />\n    <V")
            uri = editor.open(os.path.join(it.folder, "b.xml"), layout)
            rows = layout.split("\n")
            for number, text, label in (
                (1, rows[1][: rows[1].index('"m"') + 2], "match_parent"), (3, rows[3][: rows[3].index("@") + 1], "@color/back"),
                (4, rows[4][:10], "android:padding"), (5, rows[5], "View"),
            ):
                labels = [one["label"] for one in editor.at("completion", uri, number, len(text))]
                if label not in labels:
                    return "%r: %s" % (text, labels[:5])
            return offers_in_a_project(it, editor)


def offers_in_a_project(it: Place, editor: Client) -> str:
    """In a project all classes that can be laid out, and resources of the kind that is begun."""
    shutil.copytree(os.path.join(EXAMPLES, "trips", "res"), os.path.join(it.folder, "res"))
    begun = ('<Bu', '<View android:text="@string/', '<View style="@style/')
    for number, (text, wanted) in enumerate(zip(begun, ("Button", "@string/", "@style/"))):
        uri = editor.open(os.path.join(it.folder, "res/layout/l%d.xml" % number), text)
        labels = [one["label"] for one in editor.at("completion", uri, 0, len(text))]
        if not any(one.startswith(wanted) for one in labels) or number and not all(one.startswith(wanted) for one in labels):
            return "%r: %s" % (text, labels[:5])
    return ""


def explains() -> str:
    """Hover says what `explain` says, and what a view is."""
    with place() as it:
        it.put("ids.txt", IDS)
        script = "window 9 9\nadd root FrameLayout match match\nid v1 @id/send\nframe\nbounds @id/send\n# add\n"
        with client(it) as editor:
            uri = editor.open(os.path.join(it.folder, "a.script"), script)
            of_class = it.start("vindaesk", "explain", "LinearLayout").communicate(timeout=SECONDS)[0].decode().strip()
            explained = it.start("vindaesk", "explain", "add").communicate(timeout=SECONDS)[0].decode().strip()
            for line, column, said in ((1, 1, explained), (4, 9, "v1 FrameLayout @id/send"), (1, 25, "W: match, wrap or a number"),
                                       (5, 3, None), (99, 0, None)):
                found = editor.at("hover", uri, line, column)
                if (said is None) != (found is None) or (said and not found["contents"]["value"].startswith(said)):
                    return "%d:%d: %s" % (line, column, found)
            uri = editor.open(os.path.join(it.folder, "a.xml"), LAYOUT)
            for line, column, said in ((1, 8, "The attribute layout_width of a layout file takes"), (1, 1, None), (0, 3, of_class)):
                found = editor.at("hover", uri, line, column)
                if (said is None) != (found is None) or (said and not found["contents"]["value"].startswith(said)):
                    return "of a layout: %s" % found
    return ""


def finds_definitions() -> str:
    """The line that made a view, a name in the list of ids, a file, a resource of a project, and the outline."""
    with place() as it:
        it.put("ids.txt", IDS)
        it.put("other.lines", OTHER)
        shutil.copytree(os.path.join(EXAMPLES, "trips", "res"), os.path.join(it.folder, "res"))
        script = "window 9 9\nadd root FrameLayout match match\nadd v1 View 1 1\nid v2 @id/send\ninclude other.lines\nbg v2 #ff000000\nframe\n"
        with client(it) as editor:
            uri = editor.open(os.path.join(it.folder, "a.script"), script)
            for line, column, wanted in ((5, 4, [("a.script", 2)]), (3, 8, [("a.script", 2), ("ids.txt", 0)]), (4, 9, [("other.lines", 0)]),
                                         (0, 1, [])):
                found = [(os.path.basename(one["uri"]), one["range"]["start"]["line"]) for one in editor.at("definition", uri, line, column)]
                if found != wanted:
                    return "%d:%d: %s" % (line, column, found)
            views = editor.ask("textDocument/documentSymbol", {"textDocument": {"uri": uri}})
            if [one["name"] for one in views] != ["v1 FrameLayout"] or views[0]["children"][0]["detail"] != "@id/send":
                return "the outline is %s" % views
            name = os.path.join(it.folder, "res/layout/home.xml")
            text = it.read("res/layout/home.xml").decode()
            uri = editor.open(name, text)
            said = editor.messages(uri)
            row = next(number for number, line in enumerate(text.split("\n")) if "@string/" in line)
            column = text.split("\n")[row].index("@string/") + 3
            files = [os.path.relpath(one["uri"][7:], it.folder) for one in editor.at("definition", uri, row, column)]
            if not files or not all(one.startswith("res/values") for one in files) or said:
                return "a text of a project is in %s; messages: %s" % (files, said)
            elements = editor.ask("textDocument/documentSymbol", {"textDocument": {"uri": uri}})
            return "" if len(elements) == 1 and elements[0]["children"] else "the outline is %s" % elements


def keeps_to_the_protocol() -> str:
    """The order of requests, errors, cancelled requests, broken messages, and how it ends."""
    with place() as it:
        with client(it, False) as editor:
            codes = [editor.ask("textDocument/hover", {})["code"]]
            capabilities = editor.ask("initialize", {"capabilities": {}})["capabilities"]
            codes.append(editor.ask("initialize", {})["code"])
            codes.append(editor.ask("no/method", {})["code"])
            codes.append(editor.ask("textDocument/hover", {"position": 3})["code"])
            codes.append(editor.ask("textDocument/hover", [])["code"])
            for broken in (b"{", b"[]", b"\xff", b"[" * 100000, b'{"method": 3, "id": 1}'):
                editor.send(broken)
                answer = editor.receive()
                codes.append(answer["error"]["code"] if answer["id"] is None else 0)
            wanted = [-32002, -32600, -32601, -32602, -32602, -32700, -32600, -32700, -32700, -32600]
            if codes != wanted or capabilities["positionEncoding"] != "utf-16":
                return "the codes of errors are %s" % codes
            editor.notify("no/notification")
            why = cancels(editor) or stops(editor)
        return why or ends(it)


def cancels(editor: Client) -> str:
    """A request that is cancelled before its turn is not carried out."""
    uri = editor.open("/nowhere/a.script", "window 9 9\n" + "frame\n" * 2000)
    for number in (1001, 1002):
        editor.send({"id": number, "method": "textDocument/documentSymbol", "params": {"textDocument": {"uri": uri}}})
    editor.send({"method": "$/cancelRequest", "params": {"id": 1002}})
    editor.send({"method": "$/cancelRequest", "params": None})
    answers: Dict[int, Any] = {}
    while len(answers) < 2:
        found = editor.receive()
        if "id" in found:
            answers[found["id"]] = found
    if "result" not in answers[1001] or answers[1002].get("error", {}).get("code") != -32800:
        return "of a cancelled request: %s" % answers
    return ""


def stops(editor: Client) -> str:
    """After shutdown there is only exit, which ends it with the status 0."""
    if editor.ask("shutdown") is not None or editor.ask("textDocument/hover", {})["code"] != -32600:
        return "after shutdown it answers"
    editor.notify("exit")
    status = editor.started.wait(SECONDS)
    return "" if status == 0 else "after shutdown and exit the status is %d" % status


def ends(it: Place) -> str:
    """It ends with the status 1 without shutdown, and with a sentence where what comes has no frame."""
    exit_at_once = b'Content-Length: 17\r\n\r\n{"method":"exit"}'
    framed = "the messages of the editor cannot be read: "
    for given, said in ((exit_at_once, ""), (b"", ""), (b"Content-Length: 9\r\n\r\n{", ""), (b"hello\r\n\r\n", framed + "a header is no line"),
                        (b"Content-Length: x\r\n\r\n", framed + "a message has no Content-Length")):
        started = it.start("tools/language")
        out, errors = started.communicate(given, SECONDS)
        why = unlike((started.returncode, out, errors.decode()), 1, b"", said)
        if why:
            return "%r: %s" % (given, why)
    return ""


def neovim() -> str:
    """Neovim with the lines of docs/EDITORS.md shows messages and explanations."""
    command = need("nvim")
    with place() as it:
        it.put("a.script", WRONG.split("\n")[0] + "\nad root View 1 1\nadd root View 1 1\n")
        os.symlink(os.path.join(TOP, "tools", "language"), os.path.join(it.folder, "vindaesk-language"))
        it.put("ask.lua", ASKED)
        words = [command, "--headless", "-u", os.path.join(TOP, "docs/examples/editors/neovim.lua"), "a.script", "-c", "luafile ask.lua"]
        path = "%s:%s" % (it.folder, os.environ["PATH"])
        ended = subprocess.run(
            ["timeout", "%d" % SECONDS, *words], cwd=it.folder, stdin=subprocess.DEVNULL, stdout=subprocess.PIPE,
            stderr=subprocess.STDOUT, env={**os.environ, "PATH": path, "HOME": it.folder, "XDG_STATE_HOME": it.folder}
        )
        said = ended.stdout.decode().replace("\r", "")
        wanted = ("1 0 2 no line begins with 'ad'; did you mean 'add'?", "The line add root C W H makes a view")
        return "" if all(part in said for part in wanted) else "it shows %r" % said


def checks() -> Checks:
    yield from named("the language server", (
        says_what_check_says, says_what_axml_says, offers, explains, finds_definitions, keeps_to_the_protocol
    ))
    yield "editors: Neovim", neovim
