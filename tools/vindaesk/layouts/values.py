"""The values of attributes as texts of a source, and back. docs/FORMATS.md has what the types and the words mean."""
import math
import re
import struct
from typing import Dict, Iterator, Optional

from ..scripts.grammar import guess, listed
from . import dimensions
from .attributes import Form, flags_text
from .documents import (
    BOOLEAN, COLOURS, DIMENSION, FLOAT, FRACTION, HEXADECIMAL, NULL, REFERENCE, STRING, THEME, Value, WHOLE,
)
from ..scripts.resource_names import Names, Unnamed

NAMED = re.compile(r"@(\+?)(?:([A-Za-z_][\w.]*):)?(\w+)/([\w.$-]+)", re.ASCII)
BY_NUMBER = re.compile(r"@(?:0x)?([0-9A-Fa-f]{1,8})")
THEMED = re.compile(r"\?(?:([A-Za-z_][\w.]*):)?(?:attr/)?([\w.$-]+)", re.ASCII)
THEMED_BY_NUMBER = re.compile(r"\?(?:0x)?([0-9A-Fa-f]{8})")
COLOUR = re.compile(r"#([0-9A-Fa-f]{3}|[0-9A-Fa-f]{4}|[0-9A-Fa-f]{6}|[0-9A-Fa-f]{8})")
NUMBER = r"[-+]?(?:\d+(?:\.\d*)?|\.\d+)(?:[eE][-+]?\d{1,2})?"
REAL = re.compile(NUMBER, re.ASCII)
LENGTH = re.compile(r"(%s)(px|dip|dp|sp|pt|in|mm)" % NUMBER, re.ASCII)
SHARE = re.compile(r"(%s)%%(p?)" % NUMBER, re.ASCII)
DECIMAL = re.compile(r"-?\d{1,10}", re.ASCII)
HEX = re.compile(r"0x[0-9A-Fa-f]{1,8}")
ESCAPE = re.compile(r"\\(u[0-9A-Fa-f]{4}|.?)", re.DOTALL)
# what is no character of XML, or is there no longer after it was read
UNSAID = re.compile("[^\u0020-\ud7ff\ue000-\ufffd\U00010000-\U0010ffff]")
TRUE, FALSE = ("true", "True", "TRUE"), ("false", "False", "FALSE")
ALL = 0xFFFFFFFF


class Unfit(Exception):
    """A text that an attribute cannot have, in a sentence."""


def single(number: float) -> float:
    """A number as 32 bits keep it."""
    if math.isinf(number):
        raise Unfit("the number is too large")
    try:
        (kept,) = struct.unpack("<f", struct.pack("<f", number))
        return float(kept)
    except OverflowError:
        raise Unfit("'%g' is too large" % number)


def float_word(text: str) -> int:
    """The word of a float."""
    return int.from_bytes(struct.pack("<f", single(float(text))), "little")


def complex_word(number: float, unit: int) -> int:
    """The word of a number and a unit, with as many bits after the point as there is room for, as Android keeps it."""
    parts = int(single(single(abs(number) * (1 << 23)) + 0.5))
    if parts >> 46:
        raise Unfit("'%g' is too large" % number)
    if parts & 0x7FFFFF == 0:
        radix = 0
    else:
        radix = next((it for it in (3, 2, 1) if parts >> 23 + 8 * (3 - it) == 0), 0)
    mantissa = parts >> 23 - dimensions.RADIXES[radix]
    return ((-mantissa if number < 0 else mantissa) & 0xFFFFFF) << 8 | radix << 4 | unit


def unescaped(text: str) -> str:
    """A text of a source without its escapes."""

    def meant(found: "re.Match[str]") -> str:
        if found[1][:1] == "u":
            if len(found[1]) != 5:
                raise Unfit("'\\u' is not followed by four hexadecimal digits")
            return chr(int(found[1][1:], 16))
        return {"n": "\n", "t": "\t"}.get(found[1], found[1])

    made = ESCAPE.sub(meant, text)
    try:
        return made.encode("utf-16", "surrogatepass").decode("utf-16")
    except UnicodeDecodeError:
        raise Unfit("it has half of a character")


def reference(text: str, names: Names) -> Optional[Value]:
    """The value of a text that names a resource, or an attribute of a theme."""
    if text in ("@null", "@empty"):
        return Value(REFERENCE, 0) if text == "@null" else Value(NULL, 1)
    found = NAMED.fullmatch(text)
    if found and found[1]:
        if found[3] != "id" or found[2]:
            raise Unfit("'%s' cannot be made here: only ids of views are" % text)
        return Value(REFERENCE, names.made(found[4]))
    if found:
        return Value(REFERENCE, names.id_of(found[2] or "", found[3], found[4]))
    number = BY_NUMBER.fullmatch(text)
    if number:
        return Value(REFERENCE, int(number[1], 16))
    number = THEMED_BY_NUMBER.fullmatch(text)
    if number:
        return Value(THEME, int(number[1], 16))
    themed = THEMED.fullmatch(text)
    return Value(THEME, names.id_of(themed[1] or "", "attr", themed[2])) if themed else None


def colour(text: str) -> Optional[Value]:
    """The value of a colour."""
    found = COLOUR.fullmatch(text)
    if not found:
        return None
    digits, is_short = found[1], len(found[1]) < 6
    whole = "".join(it * 2 for it in digits) if is_short else digits
    kind = COLOURS[{8: 0, 6: 1, 4: 2, 3: 3}[len(digits)]]
    return Value(kind, int(whole.rjust(8, "f"), 16))


def boolean(text: str) -> Optional[Value]:
    """The value of `true` or `false`."""
    return Value(BOOLEAN, ALL if text in TRUE else 0) if text in TRUE + FALSE else None


def whole(text: str) -> Optional[Value]:
    """The value of a whole number."""
    if HEX.fullmatch(text):
        return Value(HEXADECIMAL, int(text, 16))
    if not DECIMAL.fullmatch(text) or not -(1 << 31) <= int(text) < 1 << 31:
        return None
    return Value(WHOLE, int(text) & ALL)


def real(text: str) -> Optional[Value]:
    """The value of a number."""
    return Value(FLOAT, float_word(text)) if REAL.fullmatch(text) else None


def dimension(text: str) -> Optional[Value]:
    """The value of a number with a unit."""
    found = LENGTH.fullmatch(text)
    if not found:
        return None
    unit = dimensions.UNITS.index(found[2].replace("dip", "dp"))
    return Value(DIMENSION, complex_word(single(float(found[1])), unit))


def share(text: str) -> Optional[Value]:
    """The value of a fraction in hundredths, of a view or, with `p`, of its parent."""
    found = SHARE.fullmatch(text)
    if not found:
        return None
    return Value(FRACTION, complex_word(single(single(float(found[1])) * single(0.01)), len(found[2])))


READERS = {"colour": colour, "boolean": boolean, "whole": whole, "float": real, "dimension": dimension, "share": share}
SAYS = {"colour": "a colour as #ff0080ff", "boolean": "true or false", "whole": "a whole number", "float": "a number",
        "dimension": "a number with a unit as 16dp", "share": "a number with % or %p", "string": "a text"}


def flags(text: str, known: Dict[str, int]) -> Optional[Value]:
    """The value of words joined by `|`."""
    parts = [it.strip() for it in text.split("|")] if text else []
    if not all(it in known for it in parts):
        return None
    word = 0
    for it in parts:
        word |= known[it]
    return Value(HEXADECIMAL, word)


def said(form: Form) -> str:
    """What the text of an attribute may be, in words."""
    words = [*form.words, *([", ".join(form.flags) + ", or some of these joined by |"] if form.flags else [])]
    return listed([*words, *(SAYS[it] for it in form.forms), "a resource as @7f050001"])


def read(text: str, form: Form, names: Names) -> Value:
    """The value of a text of a source, for an attribute of some form."""
    plain = text.strip(" \n\r\t")
    try:
        found = reference(plain, names)
        if found is None and plain in form.words:
            found = Value(WHOLE, form.words[plain] & ALL)
        if found is None and form.flags:
            found = flags(plain, form.flags)
        for name in form.forms if found is None else ():
            found = found or (READERS[name](plain) if name in READERS else None)
    except Unnamed as unnamed:
        raise Unfit(str(unnamed))
    if found is None and "string" in form.forms:
        return Value(STRING, 0, unescaped(text))
    if found is None:
        last = plain.split("|")[-1].strip()
        why = guess(last, (*form.words, *form.flags)) or ": it is %s" % said(form)
        raise Unfit("'%s' does not fit%s" % (plain, why))
    return found


# and back


def complex_texts(word: int, scale: int) -> Iterator[str]:
    """The number of a word with a unit, times a scale, with more and more digits, and at the end with all of them."""
    number = dimensions.mantissa(word) * scale / dimensions.divisor(word)
    for digits in range(24):
        text = "%.*f" % (digits, number)
        yield text.rstrip("0").rstrip(".") if digits else text


def float_texts(word: int) -> Iterator[str]:
    """A float with more and more digits; nothing where it is infinite or no number."""
    (number,) = struct.unpack("<f", struct.pack("<I", word))
    for digits in range(1, 10) if word >> 23 & 0xFF != 0xFF else ():
        text = "%.*g" % (digits, number)
        if text.lstrip("-").isdigit():
            yield text + ".0"
        yield text


def colour_texts(kind: int, word: int) -> Iterator[str]:
    """A colour in as few digits as its type has, and in all of them."""
    digits = "%08x" % word
    if kind in COLOURS[2:]:
        yield "#" + digits[0::2][kind - COLOURS[2] :]
    if kind == COLOURS[1]:
        yield "#" + digits[2:]
    yield "#" + digits


def escaped(text: str) -> str:
    """A text as a source has it."""
    made = text.replace("\\", "\\\\").replace("\n", "\\n").replace("\t", "\\t")
    made = UNSAID.sub(lambda it: "\\u%04x" % ord(it[0]), made)
    return "\\" + made if made[:1] in ("@", "?", "#") else made


def reference_text(value: Value, names: Names, creates: bool) -> str:
    """The text of a reference to a resource or to an attribute of a theme, by its name where it has one."""
    if value.kind == THEME:
        name = names.name_of(value.word, "attr")
        return "?" + (name or "%08x" % value.word)
    name = names.name_of(value.word, "id" if creates else "")
    if name is None:
        return "@%08x" % value.word if value.word else "@null"
    return "@%s%s" % ("+" if creates and ":" not in name else "", name)


def texts(value: Value, form: Form, names: Names, creates: bool) -> Iterator[str]:
    """The texts that a value may have in a source; the last one says it most exactly."""
    kind, word = value.kind, value.word
    if kind in (REFERENCE, THEME):
        yield reference_text(value, names, creates)
    elif kind == NULL:
        yield "@empty" if word == 1 else "@null"
    elif kind == STRING:
        text = escaped(value.text or "")
        yield from (text, "\\" + text, text)
    elif kind == FLOAT:
        yield from float_texts(word)
    elif kind == DIMENSION and dimensions.unit(word):
        yield from (text + (dimensions.unit(word) or "") for text in complex_texts(word, 1))
    elif kind == FRACTION and word & 15 < 2:
        yield from (text + "%" + "p" * (word & 15) for text in complex_texts(word, 100))
    elif kind == BOOLEAN:
        yield "true" if word else "false"
    elif kind in COLOURS:
        yield from colour_texts(kind, word)
    elif kind in (WHOLE, HEXADECIMAL):
        signed = dimensions.signed(word, 32)
        yield "%d" % signed if kind == WHOLE else "0x%x" % word
        yield from [name for name, number in form.words.items() if number == signed][:1]
        yield from [text for text in [flags_text(word, form.flags)] if form.flags and text]


def shown(value: Value, form: Form, names: Names, creates: bool = False) -> Optional[str]:
    """The text of a value in a source: the first one that is read as this value, else the most exact one; nothing where
    it has none. Where a name may be new there, `creates` is true."""
    text = None
    for text in texts(value, form, names, creates):
        try:
            if read(text, form, names) == value:
                return text
        except Unfit:
            pass
    return text
