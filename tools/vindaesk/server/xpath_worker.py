"""Finds elements by XPath, in a process of its own, which its parent ends where an expression takes too long.

Standard input has requests and standard output their answers, each a line of JSON: {"source": XML, "path": EXPRESSION,
"inside": PLACE} with the source only where it is another one than before, and {"found": [PLACES IN DOCUMENT ORDER]} or
{"error": SENTENCE}. A place is that of an element among all below the root; -1, the root, is where a path begins."""
import importlib
import json
import re
import sys
import xml.etree.ElementTree as ElementTree
from typing import Any, Dict, List

# what both engines read in the same way: steps of names or stars, the first predicate a place among elements of a name
TEXT = r"""(?:"[^"]*"|'[^']*')"""
HAS = r"\[\s*@[A-Za-z][\w-]*\s*(?:=\s*%s\s*)?\]" % TEXT
STEP = r"//?(?:\*(?:%s)*|[A-Za-z_][\w.-]*(?:\[[1-9][0-9]{0,5}\])?(?:%s)*)" % (HAS, HAS)
SIMPLE = re.compile(r"(?:%s)+" % STEP)
WITHOUT_LXML = (
    "this needs all of XPath, for which the server needs lxml (Debian's python3-lxml); without it there are steps "
    "as //NAME, /NAME, //*, with [N], [@A] and [@A='TEXT']"
)


class Plain:
    """The part of XPath that Python's own library has."""

    def __init__(self, source: str):
        document = ElementTree.Element("document")
        self.document = document
        document.append(ElementTree.fromstring(source.encode()))
        self.places = {it: place for place, it in enumerate(document.iter(), -2)}
        self.elements = list(document.iter())

    def found(self, path: str, inside: int) -> List[int]:
        """The places of the elements that a path leads to."""
        is_whole = path.startswith("/")
        path = path if is_whole else path[1:] if path.startswith("./") else "/" + path
        if not SIMPLE.fullmatch(path):
            raise ValueError(WITHOUT_LXML)
        begun = self.document if is_whole else self.elements[inside + 2]
        return sorted({self.places[it] for it in begun.iterfind("." + path)})


class Full:
    """All of XPath 1.0, by lxml."""

    def __init__(self, source: str):
        etree = importlib.import_module("lxml.etree")
        self.wrong = (etree.XPathError, etree.XPathEvalError)
        self.root: Any = etree.fromstring(source.encode())
        self.elements = list(self.root.iter())
        self.places = {it: place for place, it in enumerate(self.elements, -1)}

    def found(self, path: str, inside: int) -> List[int]:
        """The places of the elements that a path leads to."""
        try:
            found = self.elements[inside + 1].xpath(path)
        except self.wrong as error:
            raise ValueError(str(error))
        if not isinstance(found, list) or not all(hasattr(it, "tag") for it in found):
            raise ValueError("it leads to no elements")
        return [self.places[it] for it in found]


def engine(source: str) -> Any:
    """What finds in a source."""
    try:
        return Full(source)
    except ImportError:
        return Plain(source)


def answer(state: Dict[str, Any], request: Dict[str, Any]) -> Dict[str, Any]:
    """The answer to a request."""
    if "source" in request:
        state["engine"] = engine(request["source"])
    try:
        return {"found": [it for it in state["engine"].found(request["path"], request["inside"]) if it >= 0]}
    except Exception as error:
        # what a library makes of an expression that it does not take
        return {"error": str(error) or type(error).__name__}


def main() -> None:
    """Answers until standard input ends."""
    state: Dict[str, Any] = {}
    for line in sys.stdin:
        print(json.dumps(answer(state, json.loads(line))), flush=True)


if __name__ == "__main__":
    main()
