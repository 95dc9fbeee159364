"""Data within a page in HTML."""
import json
from typing import Dict

TITLE, DATA = "<!--TITLE-->", "<!--DATA-->"


def embedded(data: Dict[str, object]) -> str:
    """JSON for an element of a page, which no text in it can end."""
    text = json.dumps(data, ensure_ascii=False, separators=(",", ":"))
    return text.replace("&", "\\u0026").replace("<", "\\u003c").replace(">", "\\u003e")


def page(template: str, title: str, data: Dict[str, object]) -> bytes:
    """A page: a template, by its path, with a title and data in its places for them."""
    with open(template, encoding="utf-8") as file:
        head, rest = file.read().split(DATA)
    plain = title.replace("&", "&amp;").replace("<", "&lt;")
    return (head.replace(TITLE, plain) + embedded(data) + rest).encode("utf-8", "replace")
