"""Tries how tools/lint writes findings, and which it passes over: formats, baselines, `tools:ignore`."""
import json
import os
import re
import urllib.parse
import xml.etree.ElementTree as ElementTree
from typing import Any, Dict, List

import sarif_form
import sarif_schema
from lints import FAULTS
from running import TOP, Checks, Skipped, named
from tools import EXAMPLES, Place, first, place, unlike
from vindaesk.lint import findings, formats, github, rules
from vindaesk.views.view_tree import View

ONLY = ("--only", "text-cut,outside,overlap")
FRAMEWORK = "/usr/share/android-framework-res/framework-res.apk"
# what GitHub's toolkit makes of these, by its own tests (packages/core/__tests__/command.test.ts)
MESSAGE = ("percent % percent % cr \r cr \r lf \n lf \n", "percent %25 percent %25 cr %0D cr %0D lf %0A lf %0A")
PROPERTY = (MESSAGE[0] + "colon : colon : comma , comma ,", MESSAGE[1] + "colon %3A colon %3A comma %2C comma %2C")
# a file whose name has what formats have to escape
NAME = "a & b,c:%.script"


def written(it: Place, form: str, name: str = NAME) -> bytes:
    """What is found in the faults, in a form."""
    it.put(name, FAULTS)
    status, out, said = it.call("lint", name, *ONLY, "--format", form)
    assert (status, said) == (1, ""), (status, said)
    return out


def writes_json() -> str:
    """Also of a line that a file has which another includes."""
    with place() as it:
        whole = json.loads(written(it, "json").decode())
    wanted = {
        "file": NAME, "line": 8, "column": 1, "severity": "warning", "rule": "overlap", "view": 4, "name": "v4 View",
        "sentence": "50 by 50 dp of it are under its sibling v5 View @7f050001", "configurations": ["160 dpi, 320 dp"],
        "included": [],
    }
    is_right = whole["version"] == 1 and len(whole["findings"]) == 4 and whole["findings"][2] == wanted
    return include_chain() if is_right else "%s" % whole


def include_chain() -> str:
    """What an object of JSON says of the files that include the one of a finding: from the innermost."""
    with place() as it:
        it.put("row.lines", "add v1 View 20 5\n")
        it.put("middle.lines", "# one more file\ninclude row.lines\n")
        it.put("c.script", "window 9 9\nadd root FrameLayout match match\ninclude middle.lines\nframe\n")
        out = it.call("lint", "c.script", "--only", "outside", "--format", "json")[1]
    found = [(one["file"], one["line"], one["included"]) for one in json.loads(out.decode())["findings"]]
    around = [{"file": "middle.lines", "line": 2, "column": None}, {"file": "c.script", "line": 3, "column": None}]
    return "" if found == [("row.lines", 1, around)] else "%s" % found


def sarif(it: Place, *words: str) -> Dict[str, Any]:
    """The log of a call."""
    whole: Dict[str, Any] = json.loads(it.call("lint", *words, "--format", "sarif")[1].decode())
    return whole


def wrong_log(whole: Dict[str, Any]) -> str:
    """Where a log is not as the standard has it: its form, and in each result the rule's place, and a URI, which has a
    base that is known exactly if it is relative, and then leads nowhere above it."""
    why = sarif_form.unfit(whole, "sarifLog")
    (run,) = whole["runs"] if not why else [{"results": []}]
    for result in run["results"]:
        listed = run["tool"]["driver"]["rules"][result["ruleIndex"]]
        if listed["id"] != result["ruleId"] or listed["defaultConfiguration"]["level"] != result["level"]:
            return "%s is not the rule %s" % (result["ruleId"], listed)
        for at in result["locations"] + result.get("relatedLocations", []):
            artifact = at["physicalLocation"]["artifactLocation"]
            uri, base = artifact["uri"], artifact.get("uriBaseId")
            is_whole = uri.startswith("file:///")
            if (base in run["originalUriBaseIds"]) == is_whole or (base is None) != is_whole:
                return "the base of %s is %s" % (uri, base)
            if ".." in uri.split("/"):
                return "the URI is %s" % uri
            plain = uri[len("file:") :] if uri.startswith("file:///") else uri
            if set(plain) & set(' ":<>\\^`{|}&,') or urllib.parse.urlsplit(uri).scheme not in ("", "file"):
                return "the URI is %s" % uri
    return why


def writes_sarif() -> str:
    """The log has the form of the standard, also of what an app includes; and a log of another form is refused."""
    with place() as it:
        it.put(NAME, FAULTS)
        log = sarif(it, NAME, *ONLY)
        why = wrong_log(log)
        result = log["runs"][0]["results"][0]
        where = result["locations"][0]["physicalLocation"]
        wanted = {"artifactLocation": {"uri": "a%20%26%20b%2Cc%3A%25.script", "uriBaseId": "%SRCROOT%"},
                  "region": {"startLine": 3, "startColumn": 1}}
        why = why or ("" if where == wanted else "%s" % where)
        app = sarif(it, os.path.join(EXAMPLES, "trips", "trips.apk"), "--layout", "home", "--only", "duplicate-id")
        around = app["runs"][0]["results"][0]["relatedLocations"][0]["physicalLocation"]
        why = why or wrong_log(app)
        why = why or ("" if around["artifactLocation"]["uri"].endswith("trips.apk!/res/layout/home.xml") else "%s" % around)
        os.mkdir(os.path.join(it.folder, "in"))
        it.folder = os.path.join(it.folder, "in")
        above = sarif(it, os.path.join("..", NAME), *ONLY)
        why = why or wrong_log(above)
        uri = above["runs"][0]["results"][0]["locations"][0]["physicalLocation"]["artifactLocation"]["uri"]
        why = why or ("" if uri.startswith("file:///") and uri.endswith("/a%20%26%20b%2Cc%3A%25.script") else uri)
    result["level"] = "bad"
    return why or ("" if wrong_log(log) else "a wrong log is taken")


def writes_commands() -> str:
    why = "" if github.escaped(MESSAGE[0]) == MESSAGE[1] else github.escaped(MESSAGE[0])
    found = github.escaped(PROPERTY[0], github.IN_PROPERTY)
    with place() as it:
        lines = written(it, "github").decode().splitlines()
    wanted = "::warning file=a & b%2Cc%3A%25.script,line=8,col=1,title=overlap::v4 View: 50 by 50 dp of it are under its " \
             "sibling v5 View @7f050001 (160 dpi, 320 dp)"
    return why or ("" if found == PROPERTY[1] else found) or ("" if lines[2:3] == [wanted] else "%s" % lines)


def writes_junit() -> str:
    """A test that fails for each rule with findings, and one that passes for each without."""
    with place() as it:
        it.put("a\x01<&>.script", FAULTS.replace("This text", "\x01<&>"))
        out = it.call("lint", "a\x01<&>.script", "--only", "text-cut,outside,no-size", "--format", "junit")[1]
    suite = ElementTree.fromstring(out.decode())
    cases = {case.get("classname"): [case.get("name"), *(it.tag for it in case)] for case in suite}
    name = "a\ufffd<&>.script"
    wanted = {"text-cut": [name, "failure"], "outside": [name, "failure"], "no-size": ["nothing is found"]}
    counts = [suite.get(name) for name in ("tests", "failures", "errors")]
    return "" if (cases, counts) == (wanted, ["3", "2", "0"]) else "%s, %s" % (cases, counts)


def name_of(number: int) -> str:
    """The name that a baseline has for a view of some number."""
    root, other = View(1, None, "FrameLayout"), View(2, None, "TextView")
    view = View(number, root, "View")
    root.children = {2: other, number: view}
    return findings.stable_name(view)


def sarif_has_the_forms_of_the_schema() -> str:
    if not os.path.exists(sarif_schema.PATH):
        raise Skipped("golang-github-haya14busa-go-sarif-dev")
    return sarif_schema.unlike()


def keeps_a_baseline() -> str:
    """What is in it is not reported, wherever its line is now; what is new is, and what is gone is said."""
    with place() as it:
        it.put("a.script", FAULTS)
        why = unlike(it.call("lint", "a.script", *ONLY, "--write-baseline", "known.json"), 0, b"", "")
        it.put("a.script", "# moved\n" + FAULTS)
        why = why or unlike(it.call("lint", "a.script", *ONLY, "--baseline", "known.json"), 0, b"", "")
        it.put("a.script", FAULTS.replace("frame\n", "add v1 View 9 400\nframe\n"))
        new = b"a.script:17:1: warning outside: v7 View: 200 dp beyond the bottom of v1, which is 320 by 200 dp (160 dpi, 320 dp)\n"
        why = why or unlike(it.call("lint", "a.script", *ONLY, "--baseline", "known.json"), 1, new, "")
        it.put("a.script", FAULTS.replace("text v6 ab", "text v6 "))
        why = why or unlike(it.call("lint", "a.script", *ONLY, "--baseline", "known.json"), 0, b"",
                            "1 finding of known.json is there no more; --write-baseline writes it anew")
        for name, text in {"no.json": None, "b.json": "{", "c.json": '{"version": 2, "findings": []}',
                           "d.json": '{"version": 1, "findings": [{"file": "a"}]}'}.items():
            if text is not None:
                it.put(name, text)
            said = "is no baseline" if text else "no.json cannot be read"
            why = why or unlike(it.call("lint", "a.script", "--baseline", name), 2, b"", said)
        names = [name_of(number) for number in (3, 8)]
        return why or ("" if names == ["FrameLayout View[1]"] * 2 else "%s" % names)


def passes_over() -> str:
    """`tools:ignore` of an element holds in it too, by our names and by Android's; a comment is that of the next
    line."""
    with place() as it:
        it.put("a.script", FAULTS.replace("add v1 View 50", "# tools:ignore outside\nadd v1 View 50"))
        found = it.call("lint", "a.script", *ONLY)[1].decode()
        why = "a comment: %s" % found if "outside" in found or "overlap" not in found else ""
        button = '<Button android:text="Send" android:layout_width="20px" android:layout_height="20px" %s/>'
        around = ('<FrameLayout xmlns:android="http://schemas.android.com/apk/res/android" '
                  'xmlns:tools="http://schemas.android.com/tools" android:layout_width="match_parent" '
                  'android:layout_height="match_parent" %s>' + button + "</FrameLayout>")
        for outer, inner, wanted in (("", "", 3), ("", 'tools:ignore="HardcodedText"', 2), ('tools:ignore="all"', "", 0),
                                     ('tools:ignore="fixed-unit,HardcodedText"', "", 0), ("", 'tools:ignore="PxUsage"', 1)):
            it.put("a.xml", around % (outer, inner))
            out = it.call("lint", "a.xml", "--only", "hard-coded-text,PxUsage")[1].decode()
            why = why or ("" if out.count("\n") == wanted else "%s %s: %s" % (outer, inner, out))
        return why


def takes_severities() -> str:
    """--severity is the least one, and --only takes what it names in any case."""
    text = "window 9 9\nadd root FrameLayout match match\nadd v1 View 1 1\nrule v2 below @1\nframe\n"
    with place() as it:
        calls = {(): 0, ("--severity", "note"): 1, ("--only", "foreign-rule"): 1, ("--severity", "error"): 0}
        for words, count in calls.items():
            out = it.call("lint", "-", *words, given=text)[1]
            if out.count(b" note foreign-rule: ") != count or out.count(b"\n") != count:
                return "%s: %r" % (words, out)
        listed = it.call("lint", "--list")[1].decode().splitlines()
        named_ones = [line.split()[:2] for line in listed]
        return "" if named_ones == [[name, rule.severity.word] for name, rule in rules.RULES.items()] else "%s" % listed


def lists_rules() -> str:
    """--list by --format json has each rule with what the page says of it, and rules of one's own; other formats are
    refused."""
    with open(os.path.join(TOP, "docs", "LINT.md"), encoding="utf-8") as file:
        rows = [line.strip("|\n").split("|") for line in file if re.match(r"\|`[a-z-]+`\|(note|warning|error)\|", line)]
    wanted = [(row[0].strip("`"), row[1], row[2].split(", ") if row[2] else []) for row in rows]
    own = 'from vindaesk.lint import rule\n\n\n@rule("own-one")\ndef f(it, page):\n    """Each view is good."""\n    yield from ()\n'
    with place() as it:
        it.put("own.py", own)
        status, out, said = it.call("lint", "--list", "--format", "json", "--rules", "own.py")
        rules.RULES.pop("own-one", None)
        whole = json.loads(out.decode())
        found = whole["rules"]
        *listed, last = [(row["rule"], row["severity"], row["android"]) for row in found]
        if status or listed != wanted or last != ("own-one", "warning", []) or whole["version"] != 1:
            return "status %d, %s: %s" % (status, said, whole)
        categories = {row["rule"]: row["category"] for row in found}
        some = [categories[name] for name in ("outside", "contrast", "own-one")]
        if some != ["placement", "picture", "own"] or found[-1]["sentence"] != "Each view is good.":
            return "categories %s, %s" % (some, found[-1])
        for form in ("sarif", "github", "junit"):
            status, out, said = it.call("lint", "--list", "--format", form)
            if (status, out) != (2, b"") or "--list has the formats text and json; %s is for findings" % form not in said:
                return "%s: status %d, %s" % (form, status, said)
    return ""


def over_all(words: List[str], it: Place) -> str:
    """What goes wrong where paths are linted in each format and by each rule."""
    for form in formats.FORMATS:
        status, out, said = it.call("lint", *words, "--severity", "note", "--format", form)
        if status not in (0, 1) or "Traceback" in said or not out:
            return "%s: status %d, '%s'" % (form, status, said[-300:])
        if form == "sarif" and wrong_log(json.loads(out.decode())):
            return wrong_log(json.loads(out.decode()))
        if form in ("json", "junit"):
            (json.loads if form == "json" else ElementTree.fromstring)(out.decode())  # type: ignore[operator]
    return ""


def takes_all_examples() -> str:
    """Scripts, layouts, apps and sources of examples/, wrong ones too."""
    with place() as it:
        return over_all([EXAMPLES, *(os.path.join(EXAMPLES, name) for name in ("trips", "trips/trips.apk", "inbox/inbox.apk"))], it)


def takes_the_framework() -> str:
    """Some layouts of Android itself."""
    if not os.path.exists(FRAMEWORK):
        raise Skipped(FRAMEWORK)
    names = "alert_dialog,alert_dialog_material,grant_credentials_permission,notification_template_material_base,screen,search_view," \
            "time_picker_material,preference_list_content"
    with place() as it:
        return over_all([FRAMEWORK, "--layout", names], it)


def goes_on() -> str:
    """What cannot be looked at stops nothing else."""
    with place() as it:
        it.put("a.script", FAULTS)
        it.put("b.script", "frame\n")
        why = ""
        for jobs in ("1", "2"):
            status, out, said = it.call("lint", "no.script", "b.script", "a.script", *ONLY, "--jobs", jobs)
            why = why or ("" if (status, out.count(b"\n")) == (1, 4) else "status %d, %r" % (status, out))
            why = why or first("'%s' is missing" % word if word not in said else "" for word in (
                "no.script cannot be read", "b.script", "the script opens no window"))
        return why


def page_has_all() -> str:
    """The table of docs/LINT.md has each rule, with its severity and Android's names of it."""
    with open(os.path.join(TOP, "docs", "LINT.md"), encoding="utf-8") as file:
        rows = [[cell.strip() for cell in line.split("|")[1:-1]] for line in file if line.startswith(("| `", "|`"))]
    found = {row[0].strip("`"): row[1:3] for row in rows if len(row) == 4}
    wanted = {name: [it.severity.word, ", ".join(it.android)] for name, it in rules.RULES.items()}
    return "" if found == wanted else "differ: %s" % sorted(
        name for name in {**found, **wanted} if found.get(name) != wanted.get(name))


def checks() -> Checks:
    yield from named("lint", (
        writes_json, writes_sarif, writes_commands, writes_junit, keeps_a_baseline, passes_over, takes_severities,
        lists_rules, sarif_has_the_forms_of_the_schema, takes_all_examples, takes_the_framework, goes_on,
        page_has_all,
    ))
