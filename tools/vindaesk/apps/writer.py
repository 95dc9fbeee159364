"""The output of a layout: its compiled file, its script, and the list of the ids of its views."""
import re
from typing import Dict, Iterable, List, Tuple

from ..common.failures import WRONG, Failure
from ..common.messages import printable
from ..layouts import attributes, compiler
from ..layouts.documents import ANDROID, Attribute, End, Namespace, Start
from ..layouts.documents import Node as DocumentNode
from ..resources.resources import Resources
from .draft import Node
from .platform_names import ID_NAME_OF

UNSAYABLE = re.compile(r"[^A-Za-z0-9_.-]")
MAX_NAME = 64
MAX_FILE = 1 << 20
MAX_DEPTH = 32
MAX_VIEWS = 4096
MAX_LINE = 1024


def file_name(stem: str, taken: Iterable[str]) -> str:
    """A name of a layout file that lines can say, and that no other file has, without its ending."""
    plain = UNSAYABLE.sub("_", stem).lstrip(".") or "_"
    name, count = plain[: MAX_NAME - 8], 1
    while name in taken:
        count += 1
        ending = "-%d" % count
        name = plain[: MAX_NAME - 8 - len(ending)] + ending
    return name


def number(root: Node) -> int:
    """Gives each element the number that its view has, in its row of the report; and returns how many there are."""
    count = 0
    left = [root]
    while left:
        node = left.pop()
        count += 1
        if node.record is not None:
            if node.is_added:
                node.record.added.append(count)
            else:
                node.record.number = count
        left.extend(reversed(node.children))
    return count


def depth_of(root: Node) -> int:
    """How deep the elements are."""
    deepest, left = 0, [(root, 1)]
    while left:
        node, depth = left.pop()
        deepest = max(deepest, depth)
        left += [(it, depth + 1) for it in node.children]
    return deepest


def nodes_of(root: Node) -> List[DocumentNode]:
    """The nodes of the document of elements."""
    made: List[DocumentNode] = [Namespace("android", ANDROID, True)]
    left: List[Tuple[Node, bool]] = [(root, False)]
    while left:
        node, is_end = left.pop()
        line = node.record.line if node.record else 0
        if is_end:
            made.append(End(line, "", node.kind))
            continue
        names = sorted(node.attributes, key=lambda name: attributes.KNOWN[name].id)
        made.append(Start(line, "", node.kind, [Attribute(ANDROID, it, node.attributes[it]) for it in names]))
        left.append((node, True))
        left.extend((it, False) for it in reversed(node.children))
    made.append(Namespace("android", ANDROID, False))
    return made


def check(root: Node, name: str) -> None:
    """A layout that the program would not take is a failure."""
    if depth_of(root) > MAX_DEPTH:
        raise Failure("%s: its views are more than %d deep" % (printable(name), MAX_DEPTH), WRONG)
    count = number(root)
    if count > MAX_VIEWS:
        raise Failure("%s: it has %d views; %d is the most" % (printable(name), count, MAX_VIEWS), WRONG)


def compiled(root: Node, name: str) -> bytes:
    """The compiled file of elements."""
    made = compiler.compiled(nodes_of(root))
    if len(made) > MAX_FILE:
        raise Failure("%s: compiled it has more than %d bytes" % (printable(name), MAX_FILE), WRONG)
    return made


def script(name: str, window: Tuple[int, int], density: int, comments: List[str]) -> bytes:
    """The script that shows a layout file."""
    lines = [("# " + printable(it))[: MAX_LINE // 4] for it in comments]
    lines += ["window %d %d" % window, "dpi %d" % density, "inflate %s.xml" % name, "frame"]
    return "".join(line + "\n" for line in lines).encode()


def ids_in(root: Node) -> List[int]:
    """The ids of the views, ascending."""
    found, left = set(), [root]
    while left:
        node = left.pop()
        if "id" in node.attributes:
            found.add(node.attributes["id"].word)
        left += node.children
    return sorted(found)


def names_of(ids: Iterable[int], resources: Resources) -> Dict[int, str]:
    """The names of ids as the list has them, as `app:id/title`."""
    found = {}
    for it in ids:
        name = resources.name(it)
        if name is not None:
            found[it] = "%s:%s/%s" % name
        elif it in ID_NAME_OF:
            found[it] = "android:id/" + ID_NAME_OF[it]
    return found


def list_of(names: Dict[int, str]) -> bytes:
    """The list of names and their ids, in the form of `aapt2 link --emit-ids`."""
    return "".join("%s = 0x%08x\n" % (name, it) for it, name in sorted(names.items())).encode()
