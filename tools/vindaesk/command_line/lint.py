"""What is wrong with layouts: texts that are cut off or hard to read, touches that are hard to place, views outside of
their parents, constraints without effect, and what Android's lint finds in sources.

PATH is a script; a layout, compiled or as a source; an app as tools/app takes it, of which --layout names layouts; or a
folder of scripts and layouts. A finding is a line FILE:LINE:COLUMN: severity rule: sentence, with the configurations in
which it holds in parentheses. --density, --width, --night and --rtl lay all out in each combination.

--list prints the rules, also by --format json, and --explain RULE what one means, with an example in which it finds something and one in which
it finds nothing. --rules adds rules of your own; docs/LINT.md shows how to write one. `tools:ignore` in a source has a
rule passed over at an element and in it, and so has a comment `# tools:ignore RULE` before a line of a script.

The status is 0 where nothing is found, and 1 where something is, or a line of a script is refused, or something has no
layout that can be looked at; refused lines are reported on standard error.
"""
import argparse
import os
from typing import Dict, List, Optional, Sequence

from ..common import failures, files, messages
from ..lint import baseline, formats, linter, registry, rules
from ..lint.matrix import RTL, Configuration, all_of
from ..lint.registry import Rule, Severity
from ..views import screens
from . import arguments, lint_work
from .lint_paths import Apps
from .lint_work import Work
from .uses import Purpose, Use

USE = Use(Purpose.CHECK, "vindaesk lint card.script --density 160,320", "what is wrong with layouts, in several configurations")
SEVERITIES = {it.word: it for it in Severity}


def add_matrix(found: argparse.ArgumentParser) -> None:
    """The arguments that say in which configurations all is laid out."""
    found.add_argument("--density", "--dpi", metavar="N,..", type=arguments.counts(screens.LEAST_DPI, screens.MOST_DPI),
                       default=[None], help="dots an inch, 40 to 1000")
    found.add_argument("--width", metavar="N,..", type=arguments.counts(1, 16384), default=[None],
                       help="widths of the window in dp")
    found.add_argument("--night", action="store_true", help="apps also at night")
    found.add_argument("--rtl", action="store_true", help="also from right to left")


def reader() -> argparse.ArgumentParser:
    """The arguments."""
    found = arguments.parser(__doc__)
    found.add_argument("paths", metavar="PATH", nargs="*", help="a script, a layout, an app or a folder; - for standard input")
    found.add_argument("--layout", metavar="NAME,..", type=arguments.names, default=[], help="these layouts of apps alone")
    add_matrix(found)
    found.add_argument("--config", metavar="NAME,..", type=arguments.names, default=[],
                       help="a script in these configurations; an app on devices with these qualifiers")
    found.add_argument("--framework", metavar="APK", help="Android's own resources for apps")
    found.add_argument("--theme", metavar="NAME", default="", help="the theme of apps; without it that of the manifest")
    found.add_argument("--ids", metavar="FILE", help="the list of ids by names; ids.txt beside the script without it")
    found.add_argument("--expanded", action="store_true", help="prints a script as the program is given it, and ends")
    found.add_argument("--format", choices=list(formats.FORMATS), default="text", help="how findings are written")
    found.add_argument("--severity", choices=list(SEVERITIES), default=Severity.WARNING.word,
                       help="the least severity of findings; warning without it")
    found.add_argument("--baseline", metavar="FILE", help="findings that are known, and not reported")
    found.add_argument("--write-baseline", metavar="FILE", help="writes all that is found as such a file")
    found.add_argument("--rules", metavar="FILE.py", action="append", default=[], help="rules of your own")
    found.add_argument("--only", metavar="RULE,..", type=arguments.names, help="these rules alone; Android's ids too")
    found.add_argument("--skip", metavar="RULE,..", type=arguments.names, default=[], help="all rules but these")
    found.add_argument("--jobs", metavar="N", type=arguments.count(1, 512), default=os.cpu_count() or 1,
                       help="of many layouts, how many at once; as many as there are processors")
    found.add_argument("--list", action="store_true", help="prints the rules and ends")
    found.add_argument("--explain", metavar="RULE,..", type=arguments.names,
                       help="prints what rules mean and ends; Android's ids too")
    return found


def chosen(given: argparse.Namespace, parser: argparse.ArgumentParser) -> Dict[str, Rule]:
    """The rules that are wanted."""
    for path in given.rules:
        linter.load(path)
    for name in registry.unknown([*(given.only or []), *given.skip, *(given.explain or [])]):
        parser.error("there is no rule '%s'; the rules are %s" % (name, ", ".join(rules.RULES)))
    least = SEVERITIES[given.severity]
    found = {}
    for name, it in rules.RULES.items():
        is_wanted = it.is_among(given.only) if given.only else it.severity >= least
        if is_wanted and not it.is_among(given.skip):
            found[name] = it
    return found


def configurations(given: argparse.Namespace) -> List[Configuration]:
    """The configurations in which all is laid out."""
    nights, directions = [False, True] if given.night else [False], ["", RTL] if given.rtl else [""]
    return all_of(given.density, given.width, nights, directions, [""])


def listed(found: Dict[str, Rule]) -> str:
    """The rules, a line each."""
    lines = []
    for name, it in found.items():
        android = " (%s)" % ", ".join(it.android) if it.android else ""
        lines.append("%-19s %-8s %s%s\n" % (name, it.severity.word, it.says, android))
    return "".join(lines)


def listed_as_json(found: Dict[str, Rule]) -> str:
    """The rules as one object, a rule a line."""
    import json

    rows = ["  " + json.dumps({"rule": name, "severity": it.severity.word, "category": it.category, "android": it.android,
                               "sentence": it.says}, ensure_ascii=False) for name, it in found.items()]
    return '{"version": %d, "rules": [\n%s\n]}\n' % (formats.JSON_VERSION, ",\n".join(rows))


# the formats of --list; those of findings alone have none for a list of rules
LISTS = {"text": listed, "json": listed_as_json}


def explained(names: Sequence[str]) -> str:
    """What rules mean, by their names or Android's; of one that was added by --rules its sentence alone."""
    from ..lint import sections

    asked = [name for name, it in rules.RULES.items() if it.is_among(names)]
    known = sections.read()
    return "\n".join(known[name].text() if name in known else listed({name: rules.RULES[name]}) for name in asked)


def folder_of(path: str) -> str:
    """The folder of a file of a baseline, from which its paths start."""
    return os.path.dirname(os.path.abspath(path))


def main(words: Optional[Sequence[str]] = None) -> int:
    parser = reader()
    given = parser.parse_args(words)
    arguments.write_any_text()
    wanted = chosen(given, parser)
    if given.list:
        if given.format not in LISTS:
            parser.error("--list has the formats %s; %s is for findings" % (" and ".join(LISTS), given.format))
        files.write("-", LISTS[given.format](rules.RULES).encode())
        return 0
    if given.explain:
        files.write("-", explained(given.explain).encode())
        return 0
    if not given.paths:
        parser.error("the following arguments are required: PATH")
    known = baseline.read(given.baseline) if given.baseline else {}
    work = Work(given, configurations(given), wanted, Apps(given.framework or ""))
    outcome = lint_work.done(work, given.jobs)
    if given.write_baseline:
        files.replace(given.write_baseline, baseline.written(outcome.found, folder_of(given.write_baseline)).encode())
        return outcome.status
    new, gone = baseline.without(outcome.found, known, folder_of(given.baseline or ""))
    if gone:
        what = "%d finding%s of %s %s there no more" % (gone, "s"[gone == 1 :], given.baseline, "is" if gone == 1 else "are")
        messages.say(what + "; --write-baseline writes it anew")
    files.write("-", formats.FORMATS[given.format](new, wanted, outcome.failed).encode("utf-8", "replace"))
    return outcome.status or (failures.WRONG if new else 0)
