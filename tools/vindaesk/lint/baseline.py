"""A baseline: the findings that a project has already, so that only new ones are reported. Each entry is a rule, a file
and a view by a name that edits elsewhere do not change, with how often it is found; lines and numbers are in none.
Paths start from the folder of the baseline."""
import json
import os
import posixpath
from typing import Dict, List, Sequence, Tuple

from ..common import files
from ..common.failures import NOT_RUN, Failure
from .findings import Finding

VERSION = 1
# the largest file that is read
MAX_FILE = 1 << 26

Key = Tuple[str, str, str]


def path_from(file: str, folder: str) -> str:
    """The path of a file from a folder, with `/`, however it was typed. Standard input is no file."""
    if file == files.named("-"):
        return file
    return os.path.relpath(file, folder).replace(os.sep, "/")


def key_of(it: Finding, folder: str = "") -> Key:
    """What makes a finding the same in another run; the file from a folder, or from the one where the tool runs."""
    return path_from(it.place.file, folder or os.curdir), it.rule, it.stable_name


def counted(found: Sequence[Finding], folder: str) -> Dict[Key, int]:
    """How often each is found."""
    counts: Dict[Key, int] = {}
    for it in found:
        key = key_of(it, folder)
        counts[key] = counts.get(key, 0) + 1
    return counts


def written(found: Sequence[Finding], folder: str) -> str:
    """The file of a baseline in a folder."""
    rows = [{"file": file, "rule": rule, "view": view, "count": count}
            for (file, rule, view), count in sorted(counted(found, folder).items())]
    lines = ",\n".join("  " + json.dumps(it, ensure_ascii=False) for it in rows)
    return '{"version": %d, "findings": [\n%s\n]}\n' % (VERSION, lines)


def row_of(row: object) -> Tuple[Key, int]:
    """An entry; `ValueError` where it is none."""
    if not isinstance(row, dict):
        raise ValueError("an entry is no object")
    texts = [row.get(name) for name in ("file", "rule", "view")]
    count = row.get("count")
    if not all(isinstance(it, str) for it in texts) or not isinstance(count, int) or count < 1:
        raise ValueError("an entry has file, rule and view, and a count of 1 or more: %s" % json.dumps(row)[:80])
    return (posixpath.normpath(str(texts[0])), str(texts[1]), str(texts[2])), count


def read(path: str) -> Dict[Key, int]:
    """The entries of a file."""
    try:
        whole = json.loads(files.read(path, MAX_FILE).decode("utf-8"))
        if not isinstance(whole, dict) or whole.get("version") != VERSION or not isinstance(whole.get("findings"), list):
            raise ValueError('it has no "version": %d and "findings"' % VERSION)
        return dict(map(row_of, whole["findings"]))
    except (UnicodeDecodeError, ValueError, RecursionError) as error:
        raise Failure("%s is no baseline: %s; --write-baseline writes one" % (path, error), NOT_RUN)


def without(found: Sequence[Finding], known: Dict[Key, int], folder: str) -> Tuple[List[Finding], int]:
    """The findings that a baseline in a folder does not have, and how many of its own are found no more."""
    left = dict(known)
    new: List[Finding] = []
    for it in found:
        key = key_of(it, folder)
        if left.get(key, 0):
            left[key] -= 1
        else:
            new.append(it)
    return new, sum(left.values())
