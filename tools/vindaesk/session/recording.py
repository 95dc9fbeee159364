"""What a session did, as a script that `vindaesk run` answers in the same way."""
import hashlib
import os
from typing import Dict

from ..common import files
from ..common.failures import NOT_RUN, Failure


def write(path: str, journal: bytes, folder: str, inflated: Dict[str, bytes]) -> None:
    """Writes the script of a session in a folder, and the layout files that it made views of beside it, where it is in
    another one. A layout file that has changed since, or another one of its name that is there, is a Failure, and then
    nothing is written."""
    into = os.path.dirname(os.path.abspath(path))
    copies: Dict[str, bytes] = {}
    for name, digest in inflated.items():
        body = files.read(os.path.join(folder, name))
        if hashlib.sha256(body).digest() != digest:
            raise Failure(
                "%s has changed since views were made of it, so the script would answer otherwise" % name, NOT_RUN
            )
        place = os.path.join(into, name)
        if not os.path.exists(place):
            copies[place] = body
        elif files.read(place) != body:
            raise Failure("%s is another file than the session's" % place, NOT_RUN)
    for place, body in copies.items():
        files.replace(place, body)
    files.replace(path, journal)
