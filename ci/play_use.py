"""What a user does to the page of docs/play, in headless Chromium: lines that are typed, touches, stacks, links, files that are
no layouts, scripts that are too long or never end; by keys alone, in narrow windows, and what can be read in light and dark.
"""
import base64
import json
import os
from typing import List, Tuple

import chromium
import contrast
from playing import PATIENCE, Case, after, first_difference, given, middle, opened, text, texts
from running import TOP, Checks, named
from vindaesk.common import files

EXAMPLES = os.path.join(TOP, "examples")
TAPPED = "window 100 50\nadd root FrameLayout match match\nadd v1 TextView 40 20\nanswer v2 click\nframe\n"
STACK = "".join("%s\n" % it for it in (
    "at 0 20 10", "in 0 window 100 50", "in 0 add root FrameLayout match match", "in 0 answer v1 yes", "in 0 frame",
    "at 1 80 30", "in 1 window 60 50", "in 1 add root TextView match match", "in 1 answer v1 click", "in 1 frame"))
# a script that takes long: the SHA-256 of a picture of 48 MB again and again
LONG = "window 4096 4096\nadd root View match match\nframe\n" + "digest\n" * 500
# the most bytes of a script
MAX_SCRIPT = 1 << 24
FIELD = "document.getElementById('script')"
# what has the focus, in a word or two; and whether that is seen: it, or what is around it, has an outline within the window
FOCUSED = """(() => {
    const it = document.activeElement, box = it.getBoundingClientRect();
    const around = [it, it.closest('.button'), it.closest('#editor')].filter(Boolean).map(it => getComputedStyle(it));
    const isSeen = around.some(it => it.outlineStyle !== 'none' && parseFloat(it.outlineWidth) >= 2);
    const name = it.id || it.name || it.getAttribute('aria-label') || it.textContent.slice(0, 20);
    const isInside = box.bottom > 0 && box.top < innerHeight && box.right > 0 && box.left < innerWidth;
    return [name, isSeen && isInside, box.top + scrollY];
})()"""
UNNAMED = ("[...document.querySelectorAll('button, input, select, textarea, ul, ol, [role=tree], [tabindex=\"0\"]:not(li)')]"
           ".filter(it => !it.ariaLabel && !it.textContent.trim() && !it.getAttribute('aria-labelledby') && !it.hidden && "
           "it.getClientRects().length && !(it.labels || []).length).map(it => it.id)")
SMALL = "[...document.querySelectorAll('body *')].filter(it => parseFloat(getComputedStyle(it).fontSize) < 12).map(it => it.tagName)"


def says_why() -> str:
    """A line that is typed and does not fit is marked, with the message of `check`; the message leads to its word."""
    with opened() as browser:
        browser.value("%s.focus(); %s.setSelectionRange(0, 0)" % (FIELD, FIELD))
        after(browser, lambda: browser.write("windwo 9 9\n"))
        said = "31 Syntax: no line begins with 'windwo'; did you mean 'window'?"
        found = [texts(browser, it) for it in ("#messages button", "#back .why", "#back mark", "#gutter .wrong")]
        browser.value("document.activeElement.blur(); document.querySelector('#messages button').click()")
        found.append([browser.value("%s.value.slice(%s.selectionStart, %s.selectionEnd)" % (FIELD, FIELD, FIELD))])
        return first_difference(list(zip(found, [["1:1: " + said], [said], ["windwo"], ["1"], ["windwo"]])))


def touches() -> str:
    """A tap becomes lines, whose deliveries are shown; a click chooses a view in both places."""
    with opened() as browser:
        given(browser, Case(TAPPED.encode(), {}))
        browser.click(*middle(browser, 20.5, 10.5, 100, 50))
        found: List[object] = [texts(browser, "#tree [aria-selected=true]")]
        found.append(browser.value("document.querySelectorAll('#marks rect').length"))
        browser.value("document.querySelector('#mode [value=touch]').click()")
        after(browser, lambda: browser.click(*middle(browser, 20.5, 10.5, 100, 50)))
        browser.until("play.touches.length === 2")
        found.append(browser.value("%s.value" % FIELD))
        found.append(texts(browser, "#touches summary"))
        found.append(texts(browser, "#touches pre"))
        found.append(browser.value("document.getElementById('panes').getClientRects().length"))
        wanted = [["v2 TextView 0 0 40 20"], 2, TAPPED + "down 0 20 10\nup 0\nframe\n",
                  ["line 6: down 0 20 10 → done yes", "line 7: up 0 → done yes"],
                  ["v1 ask DOWN 0:20,10 no\nv2 touch DOWN 0:20,10 yes\ndone yes",
                   "v1 ask UP 0:20,10 no\nv2 touch UP 0:20,10 yes\nv2 click\ndone yes"], 0]
        return first_difference(list(zip(found, wanted)))


def touches_stacks() -> str:
    """In the picture of a stack a click chooses a view of the topmost window there, and a tap is one on the stack; one
    window is shown alone, where the pointer still goes to the stack."""
    with opened() as browser:
        given(browser, Case(STACK.encode(), {}, "stack"))
        found: List[object] = [browser.value("[play.picture.origin, play.picture.width, play.picture.height]")]
        browser.click(*middle(browser, 70.5, 25.5, 120, 70))
        found.append(browser.value("[...document.querySelectorAll('#tree li')].findIndex(it => it.ariaSelected === 'true')"))
        found.append(browser.value("document.querySelector('#marks .chosen').getAttribute('x')"))
        browser.value("document.querySelector('#mode [value=touch]').click()")
        after(browser, lambda: browser.click(*middle(browser, 70.5, 25.5, 120, 70)))
        browser.until("play.touches.length === 2")
        browser.value("document.getElementById('pane').value = '0'")
        after(browser, lambda: browser.value("document.getElementById('pane').onchange()"))
        found.append(browser.value("[play.picture.origin, play.picture.width, play.picture.height]"))
        after(browser, lambda: browser.click(*middle(browser, 10.5, 5.5, 100, 50)))
        browser.until("play.touches.length === 4")
        found.append(browser.value("%s.value" % FIELD)[len(STACK) :])
        found.append(texts(browser, "#touches summary")[1:3])
        found.append(texts(browser, "#tree .window"))
        given(browser, Case((STACK + "raise 0\n").encode(), {}, "stack"))
        found.append(texts(browser, "#tree .window"))
        wanted = [[[20, 10], 120, 70], 1, "80", [[20, 10], 100, 50],
                  "sdown 0 90 35\nsup 0\nin 1 frame\nsdown 0 30 15\nsup 0\nin 0 frame\n",
                  ["line 12: sup 0 → done yes", "line 14: sdown 0 30 15 → done yes"],
                  ["window 1 at 80 30, 60 by 50, on top", "window 0 at 20 10, 100 by 50"],
                  ["window 0 at 20 10, 100 by 50, on top", "window 1 at 80 30, 60 by 50"]]
        return first_difference(list(zip(found, wanted)))


def links() -> str:
    """A link restores its script, its form and files of examples, and names a file that is not in it; one that is cut
    short or wrong says so."""
    own = "# é\nat 0 0 0\nin 0 window 9 9\nin 0 inflate a.xml\nin 0 inflate own.xml into v1\nin 0 frame\n"
    with opened() as browser:
        held = {"a.xml": files.read(os.path.join(EXAMPLES, "a.xml")), "own.xml": files.read(os.path.join(EXAMPLES, "page.xml"))}
        given(browser, Case(own.encode(), held, "stack"))
        browser.value("document.getElementById('share').click()")
        browser.until("location.hash.length > 9")
        hash_ = browser.value("location.hash")
        given(browser, Case("".join("# %d\n" % hash(str(k)) for k in range(3000)).encode(), {}))
        browser.value("document.getElementById('share').click()")
        browser.until("/would have/.test(document.getElementById('note').textContent)")
    with opened(hash_=hash_) as browser:
        form = browser.value("document.querySelector('#form :checked').value")
        found: List[object] = [browser.value("%s.value" % FIELD), form, texts(browser, "#files li"), texts(browser, "#note")]
    wanted: List[object] = [own, "stack", ["a.xml, %d bytesRemove" % len(held["a.xml"])], ["The link does not hold own.xml: add it."]]
    for wrong in (hash_[:30], "#script=", "#other", "#script=%%%", hash_.split("&")[0] + "&without=%E0", "#stack=AAAA"):
        with opened(hash_=wrong) as browser:
            found.append((wrong, texts(browser, "#note")))
        wanted.append((wrong, ["The link is cut short or wrong: it holds no script. Ask for it once more, or for the script."]))
    return first_difference(list(zip(found, wanted)))


def add(browser: chromium.Browser, name: str, expression: str) -> str:
    """What the page says of a file that is added, of which an expression makes the parts."""
    after(browser, lambda: browser.value("void play.take([new File([%s], %s)])" % (expression, json.dumps(name))))
    return text(browser, "note")


def bytes_of(data: bytes) -> str:
    return "Uint8Array.from(atob('%s'), it => it.charCodeAt(0))" % base64.b64encode(data).decode()


def takes_files() -> str:
    """Files that are scripts of either form are opened; of one that no line can read the page says why and what to do."""
    with opened() as browser:
        layout = files.read(os.path.join(EXAMPLES, "a.xml"))
        found: List[object] = [add(browser, "a.xml", bytes_of(layout)), add(browser, "ids.txt", "'app:id/a=7f080000'"),
                               add(browser, "b.stack", bytes_of(b"at 0 0 0\n\xff\nin 0 x\n")), text(browser, "state"),
                               browser.value("document.querySelector('#form :checked').value"), texts(browser, "#messages li")]
        found += [add(browser, "src.xml", "'<View/>'"), add(browser, "picture.png", "'\\x89PNG'"), add(browser, ".a", "''")]
        wanted = ["", "", "b.stack is no text in UTF-8: see its line 2.", "Status 1, 2 lines are refused.", "stack",
                  ["2:1: 31 Syntax: the byte ff is no part of a text in UTF-8", "3:6: 31 Syntax: no line begins with 'x'"],
                  "src.xml is the source of a layout, which this page does not compile: add what tools/axml makes of it, or see it "
                  "by tools/preview.",
                  "picture.png is no compiled layout, and no line inflate can read it. Scripts end with .script or .stack, files of "
                  "a line include with .lines.",
                  ".a was not added: a name has 1 to 64 letters, digits, _, - and ., the first not a dot."]
        browser.value("document.querySelector('#form [value=run]').checked = true")
        after(browser, lambda: browser.value("document.getElementById('form').onchange()"))
        found.append(text(browser, "state"))
        wanted.append("Status 1, 3 lines are refused. Line 1 is of a stack of windows, which can be chosen above.")
        return first_difference(list(zip(found, wanted)))


def takes_long_scripts() -> str:
    """A script of the most bytes is carried out, and one with one byte more is refused; of both the editor shows the
    beginning alone, and a text that is too long is not pasted."""
    with opened() as browser:
        most = "'# a\\n'.repeat(1 << 12) + '#'.repeat(%d)" % (MAX_SCRIPT - (1 << 14))
        found: List[object] = []
        for more, name in (("", "a.script"), (" + '#'", "a.script"), ("", "a.stack")):
            found += [add(browser, name, most + more), text(browser, "state"), browser.value("%s.value.length" % FIELD)]
        after(browser, lambda: browser.value("document.getElementById('tap').onclick && play.open(new Uint8Array(0), {})"))
        pasted = ("(() => { const data = new DataTransfer(); data.setData('text/plain', 'a\\n'.repeat(30000)); "
                  "return %s.dispatchEvent(new ClipboardEvent('paste', {clipboardData: data, cancelable: true})); })()" % FIELD)
        found += [browser.value(pasted), text(browser, "note"), browser.value("%s.readOnly" % FIELD)]
    fixed = "The script has %d bytes, too many to be edited here: its beginning is shown."
    long = "No answer: the script has %d bytes, and may have %d." % (MAX_SCRIPT + 1, MAX_SCRIPT)
    marked = "No answer: with the lines that this page adds the script has more than %d bytes." % MAX_SCRIPT
    wanted = [fixed % MAX_SCRIPT, "Status 1, 1 line is refused.", 1 << 20, fixed % (MAX_SCRIPT + 1), long, 1 << 20,
              fixed % MAX_SCRIPT, marked, 1 << 20, False,
              "With this text the script has 60000 characters, too many to be edited here: save it as a file, and add that.", False]
    return first_difference(list(zip(found, wanted)))


def ends_long_scripts() -> str:
    """A script that takes long is ended, the page says so, and carries out the next one."""
    with opened() as browser:
        browser.value("play.carrier.most = 100")
        given(browser, Case(LONG.encode(), {}))
        said = text(browser, "state")
        browser.value("play.carrier.most = %d" % PATIENCE)
        given(browser, Case(b"window 1 1\n", {}))
        return first_difference([(said, "No answer: the script was ended after 0.1 seconds; ./vindaesk run has no such limit."),
                                 (text(browser, "state"), "Status 0, no line is refused.")])


def begins_anew() -> str:
    """A module that fails, and a browser without memories of 64 bits, are named; the next script has an answer."""
    failing = "onmessage = () => postMessage({ error: 'the module has failed' })"
    with opened() as browser:
        browser.value("play.carrier.own = play.carrier.address; play.carrier.address = URL.createObjectURL(new Blob([%s])); "
                      "play.carrier.anew()" % json.dumps(failing))
        given(browser, Case(b"window 1 1\n", {}))
        found = [text(browser, "state")]
        browser.value("play.carrier.address = play.carrier.own; play.carrier.anew()")
        given(browser, Case(b"window 1 1\n", {}))
        found.append(text(browser, "state"))
        old = "document.getElementById('worker').textContent.replace('self.onmessage', 'WebAssembly.validate = () => false; " \
              "WebAssembly.instantiate = () => Promise.reject(new Error()); self.onmessage')"
        browser.value("play.carrier.address = URL.createObjectURL(new Blob([%s])); play.carrier.anew()" % old)
        given(browser, Case(b"window 1 1\n", {}))
        found.append(text(browser, "state"))
        return first_difference(list(zip(found, [
            "No answer: the module has failed.", "Status 0, no line is refused.",
            "No answer: this browser runs no WebAssembly with 64-bit memory, as Chromium from 133 and Firefox from 134 on do."])))


def stops(browser: chromium.Browser, most: int) -> List[Tuple[str, bool, float]]:
    """What Tab leads to, from the top of the page on: its name, whether it is seen, and how far down it is."""
    browser.value("document.activeElement.blur(); scrollTo(0, 0)")
    found: List[Tuple[str, bool, float]] = []
    for _ in range(most):
        browser.press("Tab")
        name, is_seen, top = browser.value(FOCUSED)
        if browser.value("document.activeElement === document.body"):
            break
        found.append((name, is_seen, top))
    return found


def goes_by_keys() -> str:
    """Tab leads to each part in the order in which they lie, and shows where it is; keys choose a view, tap it, open a
    refused line and take the choice away."""
    wanted = ["What is proved, and ", "example", "upload", "share", "save", "form", "script", "1:1: 31 Syntax: no l",
              "Remove a.xml", "pane", "mode", "zoom", "tap", "The picture, which scrolls", "v1 TextView 0 0 60 5",
              "line 12: sdown 0 90 ", "answer"]
    with opened(360) as browser:
        script = "x\n" + STACK + "sdown 0 90 35\n"
        given(browser, Case(script.encode(), {"a.xml": files.read(os.path.join(EXAMPLES, "a.xml"))}, "stack"))
        browser.value("document.querySelectorAll('#tree li')[1].click()")
        found = stops(browser, 40)
        why = first_difference(list(zip([name for name, _, _ in found], wanted))) if len(found) == len(wanted) else str(found)
        hidden = [name for name, is_seen, _ in found if not is_seen]
        tops = [top for _, _, top in found]
        if why or hidden or tops[5:] != sorted(tops[5:]):
            return why or "not seen: %s; places: %s" % (hidden, tops)
        return keys_act(browser)


def keys_act(browser: chromium.Browser) -> str:
    """How keys do not act, or nothing."""
    chosen = "[...document.querySelectorAll('#tree [aria-selected=true]')].map(it => it.textContent)[0] || ''"
    browser.value("document.querySelector('#tree [tabindex=\"0\"]').focus()")
    found: List[object] = []
    for key in ("ArrowLeft", "ArrowRight", "End", "ArrowLeft", "ArrowUp", "Enter", " ", "Escape", "Home"):
        browser.press(key)
        found.append((key, browser.value(chosen)[:8]))
    wanted: List[object] = [("ArrowLeft", "window 1"), ("ArrowRight", "v1 TextV"), ("End", "v1 Frame"), ("ArrowLeft", "window 0"),
                            ("ArrowUp", "v1 TextV"), ("Enter", "v1 TextV"), (" ", "v1 TextV"), ("Escape", ""), ("Home", "window 1")]
    browser.press("ArrowDown")
    browser.value("document.getElementById('tap').focus()")
    after(browser, lambda: browser.press(" "))
    found.append(browser.value("%s.value" % FIELD).splitlines()[-3:])
    wanted.append(["sdown 0 110 55", "sup 0", "in 1 frame"])
    browser.value("document.querySelector('#messages button').focus()")
    browser.press("Enter")
    found.append(browser.value("[document.activeElement.id, %s.selectionStart, %s.selectionEnd]" % (FIELD, FIELD)))
    wanted.append(["script", 0, 1])
    browser.press("Tab", is_shifted=True)
    found.append(browser.value("document.activeElement.name"))
    wanted.append("form")
    return first_difference(list(zip(found, wanted)))


def can_be_read() -> str:
    """Texts have at least 4.5 times the light of what they are on, or the other way round, and what bounds controls 3
    times; no letter is below 12 pixels, each part has a name, and no window scrolls sideways: in light and dark, with
    refused lines, a stack and a chosen view, and where there is no picture."""
    states = (("x " + "y" * 300 + "\n" + STACK + "sdown 0 90 35\n", "stack"), ("window 9 9\nbounds\nbg v1 #1\n", "run"))
    for width, is_dark in ((1280, False), (1280, True), (360, False), (360, True)):
        with opened(width, is_dark) as browser:
            for script, form in states:
                given(browser, Case(script.encode(), {"a-name-that-is-rather-long-%s.xml" % ("x" * 30): b""}, form))
                browser.value("(document.querySelectorAll('#tree li')[1] || document.body).click()")
                browser.value("document.querySelector('details').open = true")
                found = [contrast.faint(browser), browser.value("document.documentElement.scrollWidth > innerWidth"), browser.value(SMALL),
                         browser.value(UNNAMED), browser.value("getComputedStyle(document.body).backgroundColor") == "rgb(15, 19, 24)"]
                why = first_difference(list(zip(found, [[], False, [], [], is_dark])))
                if why:
                    return "%d pixels wide, %s, %s: %s" % (width, "dark" if is_dark else "light", form, why)
    return ""


def checks() -> Checks:
    yield from named("play", (says_why, touches, touches_stacks, links, takes_files, takes_long_scripts, ends_long_scripts,
                              begins_anew, goes_by_keys, can_be_read))
