"""Tries tools/page: what it writes, and what Chromium shows of it."""
import json
import os
import re
import time
from typing import Any, Dict, List

import chromium
import contrast
import golden
from running import Checks, Skipped
from tools import RED, UNSETTLED, WITHOUT, place, unlike

TOUCHED = """window 160 120
add root FrameLayout match match
bg v1 #ffeceff1
frame
add v1 ScrollView match match
id v2 @7f080001
padding v2 1 2 3 4
margins v2 4 0 0 0
add v2 LinearLayout match wrap
orient v3 vertical
add v3 TextView match 60
text v4 </script><b>&é
answer v4 click
add v3 View match 100
frame
remove v9
down 0 80 100
move 0 80 70
up 0
x
frame
down 3 10 10
"""
OUTSIDE = re.compile(rb"""<[a-z][^>]*\s(?:src|href)\s*=|url\(|@import|https?:(?!//www\.w3\.org/2000/svg)""")


def data_of(page: bytes) -> Any:
    """The data of a page."""
    text = page.split(b'<script id="data" type="application/json">')[1].split(b"</script>")[0]
    return json.loads(text.decode())


def records() -> str:
    with place() as it:
        said = ("page: standard input:16:8: 28 NoView: no view has this number or id\n"
                "page: standard input:20:1: 31 Syntax: no line begins with 'x'\n")
        found = it.call("page", "-", "a.html", "--title", "a <b>", given=TOUCHED)
        page = it.read("a.html")
        if unlike(found, 1, b"", said) or OUTSIDE.search(page) or b"<title>a &lt;b></title>" not in page:
            return unlike(found, 1, b"", said) or "outside parts: %s" % OUTSIDE.search(page)
        data = data_of(page)
        steps = data["steps"]
        views = [data["views"][place] for place in steps[1]["views"]]
        made = [
            [step["line"] for step in steps], [[event["line"] for event in step["events"]] for step in steps],
            len({step["picture"] for step in steps}), views[3]["text"], views[3]["answer"], views[1]["given"]["padding"],
            views[1]["given"]["margins"], views[1]["id"], steps[2]["events"][0]["words"], steps[1]["events"][2]["replies"][-1]
        ]
        wanted = [[4, 15, 21], [[], [17, 18, 19], [22]], 2, "</script><b>&é", "click", "1 2 3 4 px", "4 0 0 0 px",
                  "@7f080001", ["down", "3", "10", "10"], "done yes"]
        return next(("%r in place of %r" % pair for pair in zip(made, wanted) if pair[0] != pair[1]), "")


def limits() -> str:
    with place() as it:
        text = RED + "bg v1 #ff00ff00\nframe\n" * 4
        said = "the page has the first 2 frames, and 3 more are left out"
        found = it.call("page", "-", "-", "--frames", "2", given=text)
        if unlike(found, 0, None, said):
            return unlike(found, 0, None, said)
        data = data_of(found[1])
        if (len(data["steps"]), data["more"], len(data["pictures"])) != (2, 3, 2):
            return "it has %d frames, and %d pictures" % (len(data["steps"]), len(data["pictures"]))
        # a frame that does not settle and one that is refused are none
        text = UNSETTLED + "frame\nremove v1\nframe\n"
        found = it.call("page", "-", "-", given=text)
        lines = [step["line"] for step in data_of(found[1])["steps"]]
        return unlike(found, 1, None, "standard input:12:1: 34 NoRoot: the tree has no root") or ("" if lines == [5, 10] else "%s" % lines)


def wrong_scripts() -> str:
    with place() as it:
        os.mkdir(os.path.join(it.folder, "folder"))
        for text, why in WITHOUT.items():
            if text == UNSETTLED or text.startswith(RED):
                continue
            found = unlike(it.call("page", "-", "a.html", given=text), 1, b"", "there is no frame to show: %s\n" % why)
            if found or it.names() != ["folder"]:
                return "%r: %s" % (text, found or "files: %s" % it.names())
        why = unlike(it.call("page", "no.script", "a.html"), 2, b"", "no.script cannot be read: No such file")
        why = why or unlike(it.call("page", "-", "folder", given=RED), 2, b"", "folder cannot be written: it is no")
        why = why or unlike(it.call("page", "-", "no/a.html", given=RED), 2, b"", "no/a.html cannot be written")
        why = why or unlike(it.call("page", "-", "a.html", "--frames", "0", given=RED), 2, b"", "'0' is no number")
        killed = it.call("page", "-", "a.html", given=RED, **it.stand_in("kill -9 $$"))
        why = why or unlike(killed, 137, b"", "ended by the signal SIGKILL")
        return why or ("" if it.names() == ["folder", "program"] else "files: %s" % it.names())


def facts(browser: chromium.Browser) -> Dict[str, str]:
    """What the page says of the chosen view."""
    names, values = (browser.value("[...document.querySelectorAll('#facts %s')].map(it => it.textContent)" % name)
                     for name in ("dt", "dd"))
    return dict(zip(names, values))


def stage(browser: chromium.Browser) -> List[float]:
    """Left, top and width of the picture in the browser's window."""
    box = "document.getElementById('stage').getBoundingClientRect()"
    return [browser.value("%s.%s" % (box, side)) for side in ("left", "top", "width")]


def is_shown(browser: chromium.Browser) -> str:
    """How what a browser shows of a page is not as it should be."""
    browser.value("document.getElementById('after').click()")
    left, top, width = stage(browser)
    browser.click(left + width * 80 / 160, top + width * 30 / 160)
    found = facts(browser)
    wanted = {"Number": "v4", "Class": "TextView", "Text": "</script><b>&é",
              "In its parent": "0 0 152 60  (152 by 60 px)", "In the window": "5 2 157 62  (152 by 60 px)",
              "Touches": "click", "Padding": "0", "Margins": "0"}
    for name, value in wanted.items():
        if found.get(name) != value:
            return "after a click it shows %s" % found
    for key, number in (("ArrowUp", "v3"), ("ArrowLeft", "v2"), ("End", "v5"), ("Home", "v1"), ("ArrowRight", "v2")):
        if key == "ArrowUp":
            browser.value("document.querySelector('#tree [aria-selected=true]').focus()")
        browser.press(key)
        if facts(browser)["Number"] != number:
            return "after the key %s it shows %s" % (key, facts(browser))
    if (facts(browser)["Padding"], facts(browser)["Margins"]) != ("1 2 3 4 px", "4 0 0 0 px"):
        return "of a padding and of margins it shows %s" % facts(browser)
    drawn = browser.value("[...document.querySelectorAll('#marks polyline.path')].map(it => it.getAttribute('points'))")
    if drawn != ["80,100 80,70"]:
        return "paths: %s" % drawn
    log = browser.value("[...document.querySelectorAll('#log summary')].map(it => it.textContent)")
    return "" if log[:1] == ["line 17: down 0 80 100 → done yes"] and len(log) == 3 else "touches: %s" % log


def keeps_its_place(browser: chromium.Browser) -> str:
    """How the window scrolls by itself, or the page does not follow the mouse and its address."""
    browser.value("chosen = views[views.length - 1].number; document.activeElement.blur(); scrollTo(0, 0)")
    for act in ("document.getElementById('after').click()", "choose(5, false)", "document.getElementById('before').click()"):
        browser.value(act)
        if browser.value("scrollY"):
            return "after %s it has scrolled by %s" % (act, browser.value("scrollY"))
    browser.value("location.hash = '#2/v2'")
    left, top, width = stage(browser)
    point = "new PointerEvent('%s', {clientX: %f, clientY: %f, bubbles: true})"
    over = point % ("pointermove", left + width * 80 / 160, top + width * 30 / 160)
    browser.value("document.getElementById('stage').dispatchEvent(%s)" % over)
    pointed = facts(browser)["Number"]
    browser.value("document.getElementById('stage').dispatchEvent(%s)" % (point % ("pointerleave", 0, 0)))
    browser.value("location.hash = '#3/v3'")
    time.sleep(0.2)
    found = (pointed, facts(browser)["Number"], browser.value("document.getElementById('frame').value"))
    if found != ("v4", "v3", "3"):
        return "of the mouse, and of the address, it shows %s" % (found,)
    browser.value("document.querySelector('#zoom [value=\"1\"]').click()")
    return "" if stage(browser)[2] == 160 else "at 1:1 the picture is %s pixels wide" % stage(browser)[2]


def shows() -> str:
    if not chromium.COMMAND:
        raise Skipped("chromium")
    with place() as it:
        it.call("page", "-", "a.html", given=TOUCHED)
        for width, is_dark in ((1200, False), (360, True)):
            with chromium.Browser(width, 500, is_dark) as browser:
                browser.open(os.path.join(it.folder, "a.html"))
                why = is_shown(browser) or keeps_its_place(browser)
                if browser.value("document.documentElement.scrollWidth > innerWidth"):
                    why = why or "it is wider than the window"
                faint = contrast.faint(browser)
                why = why or ("too little contrast: %s" % faint if faint else "")
                dark = browser.value("getComputedStyle(document.body).backgroundColor")
                if (dark == "rgb(15, 19, 24)") != is_dark:
                    why = why or "its background is %s" % dark
                unnamed = browser.value("[...document.querySelectorAll('button, input, [role=tree]')].filter(it => "
                                        "!it.ariaLabel && !it.getAttribute('aria-labelledby') && !(it.labels || []).length).length")
                if why or unnamed:
                    return "%d pixels wide: %s" % (width, why or "%d parts have no name" % unnamed)
        return ""


def of_report(browser: chromium.Browser) -> str:
    """How what a browser shows of a report is not as it should be, by keys too."""
    shown = "document.getElementById('name').textContent + ' ' + document.querySelector('#modes :checked').value"
    steps = (("j", "./a@large side"), ("2", "./a@large overlay"), ("3", "./a@large difference"), ("k", "./a@small difference"),
             ("1", "./a@small side"))
    for key, wanted in steps:
        browser.value("document.dispatchEvent(new KeyboardEvent('keydown', {key: '%s', bubbles: true}))" % key)
        if browser.value(shown) != wanted:
            return "after the key %s it shows %s" % (key, browser.value(shown))
    browser.value("location.hash = '#b@new'")
    time.sleep(0.2)
    found = (browser.value(shown), browser.value("document.querySelectorAll('#stage img').length"),
             browser.value("document.getElementById('accept').textContent.split(' ').slice(1).join(' ')"),
             browser.value("document.getElementById('why').textContent"))
    wanted_now = ("./b@new side", 1, ". --accept ./b@new", "it has no b@new.png; --accept writes one")
    if found != wanted_now:
        return "of a new case it shows %s" % (found,)
    browser.value("location.hash = '#a@large'")
    time.sleep(0.2)
    browser.value("document.querySelector('#modes [value=overlay]').click()")
    for share, clip in ((0, "100%"), (100, "0%"), (30, "70%")):
        browser.value("document.getElementById('share').value = %d; document.getElementById('share').oninput()" % share)
        if not browser.value("document.querySelector('.over').style.clipPath").endswith(clip + ")"):
            return "with the slider at %d: %s" % (share, browser.value("document.querySelector('.over').style.clipPath"))
    rows = browser.value("[...document.querySelectorAll('#regions button')].map(it => it.textContent)")
    return "" if rows and all('in v2 TextView @id/reply "Answer"' in it for it in rows) else "regions: %s" % rows


def shows_report() -> str:
    if not chromium.COMMAND:
        raise Skipped("chromium")
    with place() as it:
        golden.put_cards(it)
        it.call("runall", ".", "--report", "out")
        for width, is_dark in ((1200, False), (360, True)):
            with chromium.Browser(width, 700, is_dark) as browser:
                browser.open(os.path.join(it.folder, "out", "index.html"))
                why = of_report(browser)
                if browser.value("document.documentElement.scrollWidth > innerWidth"):
                    why = why or "it is wider than the window"
                dark = browser.value("getComputedStyle(document.body).backgroundColor")
                if why or (dark == "rgb(15, 19, 24)") != is_dark:
                    return "%d pixels wide: %s" % (width, why or "its background is %s" % dark)
        return ""


def checks() -> Checks:
    yield "the page: records", records
    yield "the page: limits", limits
    yield "the page: wrong scripts", wrong_scripts
    yield "browser: shows a page", shows
    yield "browser: shows a report", shows_report
