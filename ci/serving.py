"""Tries the server of tools/: by Selenium as Debian has it, by plain HTTP, and by hostile requests."""
import base64
import contextlib
import http.client
import json
import os
import select
import signal
import socket
import subprocess
import sys
import tempfile
import threading
import time
from functools import partial
from typing import Any, Dict, Iterator, List, Optional, Tuple

from running import TOP, Checks, Skipped, named
from tools import place
from vindaesk.pictures import png
from vindaesk.server.capabilities import Place
from vindaesk.server.keeper import Keeper, Limits
from vindaesk.server.web import Server

SELENIUM = "/usr/lib/python3/dist-packages/selenium/__init__.py"
LXML = "/usr/lib/python3/dist-packages/lxml/__init__.py"
# Debian's Python, which has both, and the same without what is installed beside it
DEBIAN, PLAIN = ["/usr/bin/python3"], [sys.executable, "-S"]
KEY = "element-6066-11e4-a52e-4f735466cecf"
SECONDS = 60
TAP = os.path.join(TOP, "docs", "examples", "tap_selenium.py")

Answer = Tuple[int, Any]


class Client:
    """A client by plain HTTP."""

    def __init__(self, port: int, token: str = ""):
        self.port, self.token, self.session = port, token, ""

    def raw(
        self, method: str, path: str, body: Optional[bytes] = None, headers: Optional[Dict[str, str]] = None
    ) -> Answer:
        """The status of an answer, and its value."""
        connection = http.client.HTTPConnection("127.0.0.1", self.port, timeout=SECONDS)
        with contextlib.closing(connection):
            connection.request(method, path, body, headers or {})
            answer = connection.getresponse()
            return answer.status, json.loads(answer.read())["value"]

    def ask(self, method: str, path: str, **body: Any) -> Any:
        """The value of an answer, which is that of an error too."""
        text = json.dumps(body).encode() if method == "POST" else None
        return self.raw(method, "/session" + self.session + path, text)[1]

    def begin(self, **capabilities: Any) -> Any:
        """Begins a session, or returns the error."""
        wanted = {key.replace("__", ":"): value for key, value in capabilities.items()}
        found = self.ask("POST", "", capabilities={"alwaysMatch": wanted})
        if "sessionId" in found:
            self.session = "/" + found["sessionId"]
        return found

    def find(self, using: str, value: str, inside: str = "") -> List[str]:
        """The views that are found, or the code of the error."""
        below = "/element/" + inside if inside else ""
        found = self.ask("POST", below + "/elements", using=using, value=value)
        return [it[KEY] for it in found] if isinstance(found, list) else [found["error"]]


@contextlib.contextmanager
def served(*words: str, python: Optional[List[str]] = None, folder: str = "examples") -> Iterator[Client]:
    """A client of a server that is started, and ended at the end."""
    command = [
        *(python or [sys.executable]),
        os.path.join(TOP, "tools", "serve"),
        "--port",
        "0",
        "--folder",
        folder,
        *words,
    ]
    started = subprocess.Popen(command, stdout=subprocess.PIPE, stderr=subprocess.PIPE, cwd=TOP)
    try:
        assert started.stdout is not None
        line = started.stdout.readline().decode() if select.select([started.stdout], [], [], SECONDS)[0] else ""
        if not line.startswith("http://"):
            raise AssertionError("no address, but %r" % line)
        token = line.partition("any:")[2].partition("@")[0]
        yield Client(int(line.strip().rpartition(":")[2]), token)
        if started.poll() is not None:
            raise AssertionError("the server ended with %d" % started.returncode)
    finally:
        started.send_signal(signal.SIGTERM)
        try:
            said = started.communicate(timeout=SECONDS)[1]
        except subprocess.TimeoutExpired:
            started.kill()
            said = started.communicate()[1]
    if (started.returncode, said) != (143, b"serve: ended by the signal SIGTERM\n"):
        raise AssertionError("status %d, and %r" % (started.returncode, said))


def unlike(pairs: List[Tuple[object, object]]) -> str:
    """The first of some pairs whose parts differ, or nothing."""
    return next(("%r in place of %r" % pair for pair in pairs if pair[0] != pair[1]), "")


def printed() -> str:
    """What docs/SERVE.md says that the example prints."""
    with open(os.path.join(TOP, "docs", "SERVE.md"), encoding="utf-8") as file:
        return file.read().split("```drawing\n")[1].split("```")[0]


def by_selenium() -> str:
    """The example of the page, by Debian's Selenium as it is."""
    if not os.path.exists(SELENIUM):
        raise Skipped(SELENIUM)
    with served() as client, tempfile.TemporaryDirectory() as folder:
        picture = os.path.join(folder, "a.png")
        ended = subprocess.run(
            [*DEBIAN, TAP, str(client.port), picture], stdout=subprocess.PIPE, stderr=subprocess.PIPE, timeout=SECONDS
        )
        if ended.returncode:
            return ended.stderr.decode()[-900:]
        with open(picture, "rb") as file, open(os.path.join(TOP, "examples", "card.png"), "rb") as wanted:
            same = png.read(file.read(), "found") == png.read(wanted.read(), "wanted")
    return unlike([(ended.stdout.decode(), printed()), (same, True)])


# what both engines of XPath find in examples/reader.script, by XPath 1.0
PATHS: Dict[str, List[str]] = {
    "//*": ["v%d" % it for it in range(1, 12)],
    "//android.widget.TextView[@text='Next']": ["v11"],
    '//*[@clickable="true"][@text="Back"]': ["v10"],
    "/hierarchy/android.widget.LinearLayout/android.widget.LinearLayout": ["v9"],
    "//android.widget.LinearLayout/android.widget.TextView[2]": ["v6", "v11"],
    "//android.widget.ScrollView//android.widget.TextView": ["v5", "v6", "v7", "v8"],
    "//android.widget.LinearLayout//*[@resource-id]//android.widget.TextView[1]": ["v5", "v10"],
    "//hierarchy": [],
    "//nothing": [],
}
# what needs lxml, and what is no XPath at all
MORE = {
    "//*[contains(@text, 'drawn')]": ["v8"],
    "(//*[@clickable='true'])[last()]": ["v11"],
    "//*[3]": ["v7", "v9"],
    "//*[@text='Next']/..": ["v9"],
    "//*[@text='Back' or @text='Next']": ["v10", "v11"],
}
WRONG = ("//*[", "count(//*)", "//@text", "", "$x", "//*[re:test(@text, 'x')]", "/" * 3, "x" * 5000)


def finds_by_xpath(python: List[str], has_all: bool) -> str:
    if has_all and not os.path.exists(LXML):
        raise Skipped(LXML)
    with served(python=python) as client:
        client.begin(vindaesk__script="reader.script")
        pairs: List[Tuple[object, object]] = [(client.find("xpath", it), found) for it, found in PATHS.items()]
        pairs += [(client.find("xpath", it), found if has_all else ["invalid selector"]) for it, found in MORE.items()]
        pairs += [(client.find("xpath", it), ["invalid selector"]) for it in WRONG]
        pairs += [
            (client.find("xpath", it, "v9"), ["v10", "v11"]) for it in (".//*", "./*", "*", "android.widget.TextView")
        ]
        pairs += [(client.find("xpath", "//android.widget.ScrollView", "v9"), ["v3"])]
    return unlike(pairs)


def finds_by_others() -> str:
    with served(folder="examples/inbox") as client:
        client.begin(**{"appium:app": "inbox.apk", "vindaesk:layout": "inbox", "platformName": "Android"})
        reply = client.find("id", "reply")
        pairs: List[Tuple[object, object]] = [(len(reply), 1)]
        pairs += [
            (client.find(*it), reply)
            for it in (
                ("id", "vindaesk.inbox:id/reply"),
                ("css selector", "#reply"),
                ("css selector", '[id="reply"]'),
                ("link text", "Reply"),
                ("partial link text", "epl"),
                ("xpath", "//*[@resource-id='vindaesk.inbox:id/reply']"),
                ("-android uiautomator", 'new UiSelector().text("Reply").className("android.widget.TextView");'),
                (
                    "-android uiautomator",
                    'new UiSelector().className("android.widget.LinearLayout").childSelector('
                    'new UiSelector().resourceId("vindaesk.inbox:id/reply").clickable(true))',
                ),
            )
        ]
        texts = client.find("class name", "TextView")
        pairs += [
            (client.find(*it), texts)
            for it in (
                ("class name", "android.widget.TextView"),
                ("tag name", "TextView"),
                ("css selector", ".android\\.widget\\.TextView"),
            )
        ]
        pairs += [
            (
                client.find(
                    "-android uiautomator", 'new UiSelector().className("android.widget.TextView").instance(1)'
                ),
                texts[1:2],
            )
        ]
        pairs += [
            (client.find(*it), ["invalid selector"])
            for it in (
                ("css selector", "a > b"),
                ("-android uiautomator", "new UiSelector().fly(true)"),
                ("-android uiautomator", "new UiSelector().text("),
                ("-android uiautomator", "drop()"),
                ("-android uiautomator", "new UiSelector().childSelector(" * 99),
            )
        ]
        pairs += [(client.find("smell", "x"), ["invalid argument"]), (client.find("id", ""), [])]
    return unlike(pairs)


def finds_by_descriptions() -> str:
    """As Appium's clients call content descriptions: of an app, of a layout file of a script, and where there are none."""
    with served(folder="examples/trips") as client:
        client.begin(**{"appium:app": "trips.apk", "vindaesk:layout": "search"})
        found = client.find("id", "go")
        pairs: List[Tuple[object, object]] = [(len(found), 1)]
        pairs += [
            (client.find(*it), found)
            for it in (
                ("accessibility id", "Where to?"),
                ("-android uiautomator", 'new UiSelector().description("Where to?")'),
                ("-android uiautomator", 'new UiSelector().descriptionContains("RE T")'),
                ("-android uiautomator", 'new UiSelector().descriptionStartsWith("where")'),
                ("xpath", "//*[@content-desc='Where to?']"),
            )
        ]
        pairs += [(client.find("accessibility id", it), []) for it in ("Where", "where to?", "")]
    with served() as client:
        client.begin(vindaesk__lines="window 9 9\nadd root View 5 5\nframe")
        pairs += [(client.find("accessibility id", "x"), [])]
        answer = client.ask("POST", "/element", using="accessibility id", value="x")
        pairs += [("no view here has a content description" in answer["message"], True)]
    return unlike(pairs)


def touches() -> str:
    """Clicks, and actions of two pointers, as the example of docs/TOUCH.md has them."""
    lines = (
        "window 100 20\nadd root LinearLayout match match\nadd v1 View 50 match\nadd v1 View 50 match\nanswer v2 yes\n"
        "answer v3 click\nframe"
    )
    with served() as client:
        client.begin(vindaesk__lines=lines)

        def finger(name: str, x: int, *rest: Dict[str, object]) -> Dict[str, object]:
            begun = [{"type": "pointerMove", "x": x, "y": 5, "duration": 0}, {"type": "pointerDown", "button": 0}]
            return {"type": "pointer", "id": name, "parameters": {"pointerType": "touch"}, "actions": [*begun, *rest]}

        pause: Dict[str, object] = {"type": "pause", "duration": 50000}
        up: Dict[str, object] = {"type": "pointerUp", "button": 0}
        made: List[object] = [
            client.ask("POST", "/actions", actions=[finger("a", 10, pause, up), finger("b", 60, pause, pause, up)])
        ]
        made.append(client.ask("POST", "/execute/sync", script="mobile: touches", args=[]))
        made.append(client.ask("POST", "/actions", actions=[finger("a", 10)]))
        made.append(client.ask("DELETE", "/actions"))
        made.append(client.ask("POST", "/execute/sync", script="mobile: touches", args=[])[-2:])
        move = {"type": "pointerMove", "x": -3, "y": 0, "origin": {KEY: "v3"}, "duration": 33}
        client.ask("POST", "/actions", actions=[finger("a", 90, move, up)])
        made.append(client.ask("POST", "/execute/sync", script="mobile: touches", args=[])[2:9:3])
        made.append(client.ask("POST", "/element/v3/click"))
        made.append(client.ask("POST", "/execute/sync", script="mobile: touches", args=[])[-2:])
        client.ask("POST", "/execute/sync", script="mobile: script", args=[{"script": "window 30 20\nframe"}])
        made.append(client.ask("POST", "/element/v3/click")["error"])
        made += [
            client.ask("POST", "/actions", actions=it)["error"]
            for it in (
                [finger("a", 10), finger("a", 10)],
                [{"type": "pointer", "id": "a", "actions": [{"type": "fly"}]}],
                3,
                [{"type": "key", "id": "k", "actions": [{"type": "keyDown", "value": "x"}]}],
                [finger("a", 10, {"type": "pointerMove", "x": 0, "y": 0, "origin": {KEY: "v99"}})],
                [{"type": "pointer", "id": "p%d" % it, "actions": [{"type": "pointerDown"}]} for it in range(33)],
            )
        ]
    wanted = [
        None,
        [
            "v1 ask DOWN 0:10,5 no",
            "v2 touch DOWN 0:10,5 yes",
            "done yes",
            "v1 ask POINTER_DOWN(1) 0:10,5 1:60,5 no",
            "v3 touch DOWN 1:10,5 yes",
            "v2 touch MOVE 0:10,5 yes",
            "done yes",
            "v1 ask POINTER_UP(0) 0:10,5 1:60,5 no",
            "v3 touch MOVE 1:10,5 yes",
            "v2 touch UP 0:10,5 yes",
            "done yes",
            "v1 ask UP 1:60,5 no",
            "v3 touch UP 1:10,5 yes",
            "v3 click",
            "done yes",
        ],
        None,
        None,
        ["v2 touch UP 0:10,5 yes", "done yes"],
        ["done yes"] * 3,
        None,
        ["v3 click", "done yes"],
        "element not interactable",
        "invalid argument",
        "invalid argument",
        "invalid argument",
        "unsupported operation",
        "no such element",
        "invalid argument",
    ]
    return unlike(list(zip(made, wanted)))


def clicks_that_others_take() -> str:
    lines = (
        "window 50 50\nadd root FrameLayout match match\nadd v1 LinearLayout 20 20\nanswer v2 click\n"
        "add v2 TextView match match\ntext v3 a\nframe"
    )
    with served() as client:
        client.begin(vindaesk__lines=lines)
        # what is around a text takes the tap
        first = client.ask("POST", "/element/v3/click")
        client.ask(
            "POST",
            "/execute/sync",
            script="mobile: script",
            args=[{"script": "add v1 View 50 50\nanswer v4 yes\nframe"}],
        )
        second = client.ask("POST", "/element/v3/click")
        return unlike(
            [
                (first, None),
                (second["error"], "element click intercepted"),
                (second["message"], "the tap on v3, at 10 10, was taken by v4"),
            ]
        )


def answers_as_webdriver() -> str:
    """Codes and statuses of https://www.w3.org/TR/webdriver2/."""
    with served() as client:
        begun = client.begin(vindaesk__script="card.script", appium__deviceName="x", platformName="android")
        own = "/session" + client.session
        rows: List[Tuple[object, object]] = [
            (begun["capabilities"]["vindaesk:ignored"], ["appium:deviceName"]),
            (client.ask("GET", "/window/rect"), {"x": 0, "y": 0, "width": 320, "height": 240}),
            (client.ask("GET", "/timeouts")["implicit"], 0),
            (client.ask("POST", "/timeouts", implicit=5), None),
            (client.ask("GET", "/timeouts")["implicit"], 5),
            (client.ask("GET", "/element/v6/text"), "Reply"),
            (client.ask("GET", "/element/v6/rect"), {"x": 164, "y": 176, "width": 140, "height": 48}),
            (client.ask("GET", "/element/v6/attribute/resource-id"), "@7f080002"),
            (client.ask("GET", "/element/v6/attribute/nothing"), None),
            (client.ask("GET", "/element/v6/displayed"), True),
            (
                client.ask("GET", "/source").startswith(
                    "<?xml version='1.0' encoding='UTF-8' standalone='yes' ?><hierarchy "
                ),
                True,
            ),
            (base64.b64decode(client.ask("GET", "/element/v6/screenshot"))[:8], b"\x89PNG\r\n\x1a\n"),
            (client.ask("POST", "/window/rect", width=400, height=300), {"x": 0, "y": 0, "width": 400, "height": 300}),
            (
                client.ask("POST", "/execute/sync", script="mobile: line", args=[{"line": "bounds v1"}]),
                ["v1 0 0 400 300"],
            ),
            (client.ask("POST", "/execute/sync", script="mobile: tree", args=[])[5]["text"], "Reply"),
        ]
        rows += [
            (error_of(client.raw(method, own + path, body)), wanted)
            for method, path, body, wanted in (
                ("POST", "/element", b'{"using": "id", "value": "x"}', (404, "no such element")),
                ("GET", "/element/v99/text", None, (404, "no such element")),
                ("GET", "/element/../text", None, (404, "no such element")),
                ("POST", "/element", b'{"using": "id"}', (400, "invalid argument")),
                ("POST", "/element", b"[1]", (400, "invalid argument")),
                ("POST", "/url", b'{"url": "x"}', (500, "unsupported operation")),
                ("GET", "/alert/text", None, (404, "no such alert")),
                ("PUT", "/element", b"{}", (501, "unknown method")),
                ("DELETE", "/element", None, (405, "unknown method")),
                ("GET", "/nothing", None, (404, "unknown command")),
                ("POST", "/execute/sync", b'{"script": "return 1", "args": []}', (500, "unsupported operation")),
                (
                    "POST",
                    "/execute/sync",
                    b'{"script": "mobile: line", "args": [{"line": "frama"}]}',
                    (400, "invalid argument"),
                ),
                ("POST", "/window/rect", b'{"width": 0, "height": 9}', (400, "invalid argument")),
            )
        ]
        client.ask("POST", "/execute/sync", script="mobile: line", args=[{"line": "remove v4"}])
        rows.append((client.ask("GET", "/element/v6/text")["error"], "stale element reference"))
        rows.append((client.ask("DELETE", ""), None))
        rows.append((error_of(client.raw("GET", own + "/source")), (404, "invalid session id")))
        rows.append((client.raw("GET", "/status")[1]["ready"], True))
    return unlike(rows)


def error_of(answer: Answer) -> Tuple[int, object]:
    """The status and the code of an error."""
    return answer[0], answer[1].get("error") if isinstance(answer[1], dict) else answer[1]


def refuses_sessions() -> str:
    """What no session can be had of, and why."""
    made: List[object] = []
    wanted: List[object] = []
    with served("--sessions", "2") as client:
        rows: List[Tuple[Dict[str, object], str]] = [
            ({"vindaesk:script": "nothing.script"}, "there is no 'nothing.script' in the server's folder"),
            ({"vindaesk:script": "../README.md"}, "'../README.md' is not below the server's folder"),
            ({"vindaesk:script": "/etc/passwd"}, "'/etc/passwd' is not below the server's folder"),
            ({"vindaesk:script": "refusals.script"}, "a line is refused"),
            ({"vindaesk:lines": "ad"}, "a line is refused 31 Syntax: ad"),
            ({"platformName": "iOS"}, "the platform is Android, and not iOS"),
            ({"browserName": "chrome"}, "and not chrome"),
            ({"vindaesk:skript": "x"}, "there is no capability vindaesk:skript"),
            ({"vindaesk:lines": 3}, "has to be a text"),
            ({"appium:app": "card.script", "vindaesk:layout": "x"}, "card.script"),
            ({"appium:app": "x"}, "vindaesk:layout has to"),
            ({"vindaesk:lines": "include ../README.md"}, "a line is refused 31 Syntax: include ../README.md"),
        ]
        for capabilities, why in rows:
            found = client.ask("POST", "", capabilities={"alwaysMatch": capabilities})
            made.append((found.get("error"), why in found.get("message", "")) if "error" in found else found)
            wanted.append(("session not created", True))
        last = [
            client.begin(vindaesk__lines="")["capabilities"]["platformName"],
            "sessionId" in Client(client.port).begin(),
            Client(client.port).begin()["message"],
            client.raw("GET", "/status")[1]["ready"],
        ]
    return unlike(
        [*zip(made, wanted), (last, ["Android", True, "there are 2 sessions, as many as this server takes", False])]
    )


def sent(port: int, text: bytes, seconds: float = SECONDS) -> bytes:
    """What a server answers to bytes, until it closes the connection or nothing comes for some seconds."""
    with socket.create_connection(("127.0.0.1", port), timeout=seconds) as connection:
        connection.sendall(text)
        found = b""
        with contextlib.suppress(socket.timeout, ConnectionError):
            while True:
                part = connection.recv(65536)
                if not part:
                    break
                found += part
                if b"}}" in found:
                    break
        return found


def survives_hostile_requests() -> str:
    """Each gets an error, and the session that is there goes on."""
    with served() as client:
        client.begin(vindaesk__script="card.script")
        own = "/session" + client.session
        made = [
            error_of(client.raw("POST", own + "/element", body))
            for body in (
                b"{",
                b"\xff\xfe",
                b'{"using": 3, "value": []}',
                b"[" * 100000,
                b'{"a":' * 100000,
                b"null",
                b"1e999",
                b'"x"',
            )
        ]
        made += [
            error_of(client.raw(method, path))
            for method, path in (
                ("GET", "/session/" + "a/" * 5000),
                ("GET", "/session/%00/source"),
                ("GET", "/" + "x" * 60000),
                ("GET", "//"),
                ("DELETE", "/session"),
                ("GET", own + "/element/" + "v9" * 9000 + "/text"),
            )
        ]
        made += [
            error_of(client.raw("GET", "/status", headers=headers))
            for headers in (
                {"Origin": "http://example.com"},
                {"Host": "example.com"},
                {"Host": "localhost.example.com"},
            )
        ]
        statuses = [
            sent(client.port, text).split(b" ")[1:2]
            for text in (
                b"nonsense\r\n\r\n",
                b"GET /status HTTP/9.9\r\n\r\n",
                b"POST /session HTTP/1.1\r\nContent-Length: -1\r\n\r\n",
                b"POST /session HTTP/1.1\r\nContent-Length: 99999999999999999999\r\n\r\n",
                b"POST /session HTTP/1.1\r\nContent-Length: 17000000\r\n\r\n",
                b"POST /session HTTP/1.1\r\nTransfer-Encoding: chunked\r\n\r\n",
                b"GET /%s HTTP/1.1\r\n\r\n" % (b"x" * 70000),
                b"GET /status HTTP/1.1\r\n" + b"A: b\r\n" * 200 + b"\r\n",
            )
        ]
        after = client.ask("GET", "/element/v6/text")
    bad, gone = (400, "invalid argument"), (404, "invalid session id")
    wanted = [bad] * 8 + [
        gone,
        gone,
        (404, "unknown command"),
        (404, "unknown command"),
        (404, "unknown command"),
        (404, "no such element"),
        (403, "forbidden"),
        (403, "forbidden"),
        (403, "forbidden"),
    ]
    return unlike(
        [
            *zip(made, wanted),
            (statuses, [[it] for it in (b"400", b"505", b"400", b"413", b"413", b"411", b"414", b"431")]),
            (after, "Reply"),
        ]
    )


def ends_what_takes_too_long() -> str:
    """An expression that takes for ever, and clients that send a byte now and then."""
    bomb = "//*" + "[count(.//*[count(.//*[count(.//*[count(.//*[count(//*//*//*) > 0]) > 0]) > 0]) > 0]) > 0]"
    deep = "//*" * 12
    lines = ["window 9 9", "add root FrameLayout match match"] + [
        "add v%d FrameLayout match match" % it for it in range(1, 32)
    ]
    lines += ["add v31 View match match"] * 300
    has_all = os.path.exists(LXML)
    with served(python=DEBIAN if has_all else PLAIN) as client:
        client.begin(vindaesk__lines="\n".join([*lines, "frame"]))
        begun = time.monotonic()
        found = client.find("xpath", bomb if has_all else deep)
        took = time.monotonic() - begun
        after = client.find("xpath", "//android.view.View[1]")
    if found not in (["timeout"], ["invalid selector"]) or took > 40:
        return "the expression: %s after %.0f seconds" % (found[:3], took)
    return unlike([(after, ["v33"])])


def limits_connections() -> str:
    """Clients that begin requests and do not go on; one more is answered by an error, until they are gone."""
    with served() as client:
        with contextlib.ExitStack() as open_ones:
            for _ in range(70):
                it = open_ones.enter_context(socket.create_connection(("127.0.0.1", client.port), timeout=SECONDS))
                with contextlib.suppress(OSError):
                    it.sendall(b"POST /session HTTP/1.1\r\nContent-Length: 99\r\n\r\n{")
            busy = client.raw("GET", "/status")
        until = time.monotonic() + SECONDS
        while client.raw("GET", "/status")[0] != 200 and time.monotonic() < until:
            time.sleep(0.1)
        return unlike([(error_of(busy), (503, "unknown error")), (client.raw("GET", "/status")[0], 200)])


def drops_slow_clients() -> str:
    """A request that does not arrive in time; here in half a second."""
    limits = Limits(arrival=0.5)
    with contextlib.closing(Keeper(Place(TOP, SECONDS), limits)) as keeper:
        server = Server(("127.0.0.1", 0), keeper)
        threading.Thread(target=server.serve_forever, daemon=True).start()
        with contextlib.closing(Closing(server)):
            begun = time.monotonic()
            texts = (b"POST /session HTTP/1.1\r\nContent-Length: 99\r\n\r\n{", b"GET /status HTTP/1.1\r\nA: ")
            found = [sent(server.server_address[1], text)[:12] for text in texts]
            took = time.monotonic() - begun
    return unlike([(found, [b"HTTP/1.1 408"] * 2), (took < 20, True)])


class Closing:
    """A server that ends."""

    def __init__(self, server: Server):
        self.server = server

    def close(self) -> None:
        self.server.shutdown()
        self.server.server_close()


def asks_for_a_token() -> str:
    with served("--host", "0.0.0.0") as client:
        token = client.token
        basic = base64.b64encode(b"any:" + token.encode()).decode()
        wrong: List[Dict[str, str]] = [
            {},
            {"Authorization": "Bearer x"},
            {"Authorization": "Basic eA=="},
            {"Authorization": "Basic ?"},
        ]
        made = [error_of(client.raw("GET", "/status", headers=headers)) for headers in wrong]
        good = [
            client.raw("GET", "/status", headers=headers)[0]
            for headers in (
                {"Authorization": "Bearer " + token},
                {"Authorization": "Basic " + basic, "Host": "example.com"},
            )
        ]
    return unlike([(made, [(401, "unauthorized")] * 4), (good, [200, 200]), (len(token) >= 32, True)])


def ends_at_once() -> str:
    """An interrupt comes while a program gives no answer."""
    kept = dict(os.environ)
    with place() as it:
        act = "read a; read b; echo 'line 2: refused 31 Syntax'; read a; read b; echo v1; echo 'line 4: refused 31 Syntax'; "
        os.environ.update(it.stand_in(act + "exec sleep 55"))
        try:
            with served() as client:
                # the first answer is that of the frame that a server looks for
                client.begin(vindaesk__lines="window 9 9")
                asked = {"target": client.ask, "args": ("GET", "/source"), "daemon": True}
                threading.Thread(**asked).start()  # type: ignore[arg-type]
                time.sleep(1)
                begun = time.monotonic()
        finally:
            os.environ.clear()
            os.environ.update(kept)
    took = time.monotonic() - begun
    return "" if took < 20 else "it took %.0f seconds" % took


def refuses_calls() -> str:
    """Arguments with which no server begins: one sentence, and status 2."""
    with tempfile.NamedTemporaryFile() as token, socket.create_server(("127.0.0.1", 0)) as taken:
        token.write(b"short\n")
        token.flush()
        port = taken.getsockname()[1]
        calls = {
            ("--folder", "/nothing"): "serve: /nothing is no folder\n",
            ("--token", token.name): "serve: %s has no token of 16 characters or more\n" % token.name,
            ("--port", str(port)): "serve: 127.0.0.1:%d cannot be listened on: Address already in use\n" % port,
            ("--host", "256.0.0.1", "--port", "0"): "serve: 256.0.0.1:0 cannot be listened on: ",
        }
        for words, wanted in calls.items():
            ended = subprocess.run(
                [sys.executable, os.path.join(TOP, "tools", "serve"), *words],
                stdout=subprocess.PIPE,
                stderr=subprocess.PIPE,
                cwd=TOP,
                timeout=SECONDS,
            )
            said = ended.stderr.decode()
            if ended.returncode != 2 or not said.startswith(wanted) or said.count("\n") != 1 or ended.stdout:
                return "%s: status %d, %r" % (" ".join(words), ended.returncode, said)
    return ""


def ends_sessions_whose_program_fails() -> str:
    """One that answers some lines and then nothing, and one that ends."""
    kept, found = dict(os.environ), []
    for act in (
        "read a; read b; echo 'line 2: refused 31 Syntax'; exec sleep 60",
        "read a; read b; echo 'line 2: refused 31 Syntax'",
    ):
        with place() as it:
            os.environ.update(it.stand_in(act))
            try:
                with served("--seconds", "1") as client:
                    begun = client.begin(vindaesk__lines="window 9 9")
                    found.append((begun["error"], begun["message"]))
                    found.append(client.raw("GET", "/status")[1]["ready"])
            finally:
                os.environ.clear()
                os.environ.update(kept)
    return unlike(
        [
            (
                found,
                [
                    ("timeout", "the program gave no answer within 1 seconds to: bounds"),
                    True,
                    ("unknown error", "the program ended before its input did"),
                    True,
                ],
            )
        ]
    )


def ends_sessions_that_are_not_used() -> str:
    with served("--idle", "1") as client:
        client.begin(vindaesk__script="card.script")
        first = client.ask("GET", "/element/v6/text")
        time.sleep(3)
        return unlike([(first, "Reply"), (client.ask("GET", "/element/v6/text")["error"], "invalid session id")])


def checks() -> Checks:
    yield "the server: finds by XPath with lxml", partial(finds_by_xpath, DEBIAN, True)
    yield "the server: finds by XPath without lxml", partial(finds_by_xpath, PLAIN, False)
    yield from named(
        "the server",
        (
            by_selenium,
            finds_by_others,
            finds_by_descriptions,
            touches,
            clicks_that_others_take,
            answers_as_webdriver,
            refuses_sessions,
            survives_hostile_requests,
            ends_what_takes_too_long,
            limits_connections,
            drops_slow_clients,
            asks_for_a_token,
            ends_sessions_that_are_not_used,
            ends_sessions_whose_program_fails,
            refuses_calls,
            ends_at_once,
        ),
    )
