"""Workflow commands of GitHub, by which its runners show a finding beside its line.

The escapes are those of GitHub's toolkit (`packages/core/src/command.ts`): `%`, CR and LF in a message, and `:` and `,`
too in a property.
"""
import os
from typing import Optional

from ..common.messages import printable
from ..views.facts import Place

IN_MESSAGE = ("%", "\r", "\n")
IN_PROPERTY = (*IN_MESSAGE, ":", ",")


def escaped(text: str, marks: "tuple[str, ...]" = IN_MESSAGE) -> str:
    """A text in which some characters have no meaning of their own."""
    for it in marks:
        text = text.replace(it, "%%%02X" % ord(it))
    return text


def command(level: str, place: Optional[Place], title: str, message: str) -> str:
    """The command for a finding, or for what has no place; the level is `error`, `warning` or `notice`."""
    where = [("file", os.path.normpath(place.file)), ("line", place.line), ("col", place.column)] if place else []
    properties = [*where, ("title", title)]
    written = ["%s=%s" % (name, escaped(str(it), IN_PROPERTY)) for name, it in properties if it]
    return "::%s %s::%s" % (level, ",".join(written), escaped(printable(message)))
