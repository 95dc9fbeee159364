"""What users give to a tool in the place of a script, and which tools take it."""
from ..common import files
from ..common.messages import tool

STACK = ".stack"
# how a compiled layout and an archive begin, and what may be before XML
COMPILED, ARCHIVE = b"\3\0\x08\0", b"PK\3\4"
MARK = b"\xef\xbb\xbf"


def what_else(path: str, text: bytes, is_stack: bool = False) -> str:
    """That a file is no script, and which tools take it; nothing where it may be one. A script of a stack of windows is
    known by the end of its name, and is right where the tool takes such scripts, and no other one is then known."""
    if text.startswith(COMPILED):
        what = "a compiled layout: {lint} and {preview} take it, and {axml} --text makes a source of it"
    elif text.startswith(ARCHIVE):
        what = "an archive: {app}, {lint} and {preview} take an APK"
    elif text[len(MARK) * text.startswith(MARK) :].lstrip().startswith(b"<"):
        what = "XML: {lint} and {preview} take the source of a layout, {app} its project, and {axml} compiles it"
    elif path.endswith(STACK) and not is_stack:
        what = "a script of a stack of windows: {screenshot} --stack WxH, {check} and `vindaesk stack` take it"
    else:
        return ""
    named = {name: tool(name) for name in ("lint", "preview", "axml", "app", "screenshot", "check")}
    return "%s is no script: it is %s" % (files.named(path), what.format(**named))
