"""The calls that the program takes, known without it, so that wrong ones are answered before any build."""
from __future__ import annotations

DIGITS = frozenset("0123456789")
HEX_DIGITS = DIGITS | frozenset("abcdefABCDEF")
NAME = DIGITS | frozenset("abcdefghijklmnopqrstuvwxyzABCDEFGHIJKLMNOPQRSTUVWXYZ_-.")
MAX_NAME = 64
MAX_IDS = 64
MAX_LOAD = 100
SIDES = ("left", "right", "up", "down")


def is_name(word: str) -> bool:
    """Whether a word is the name of a file of the current folder."""
    return 1 <= len(word) <= MAX_NAME and word[0] != "." and NAME.issuperset(word)


def is_id(word: str) -> bool:
    """Whether a word is the number of a resource."""
    return len(word) == 8 and HEX_DIGITS.issuperset(word)


def is_number(word: str) -> bool:
    """Whether a word is a number without zeros before it."""
    return word != "" and DIGITS.issuperset(word) and (word[0] != "0" or word == "0")


def is_view(word: str) -> bool:
    """Whether a word names a view, by its number or its id."""
    number, digits = word[1:], HEX_DIGITS.issuperset(word[1:])
    return (word[:1] == "v" and is_number(number) and len(number) <= 10) or (
        word[:1] == "@" and digits and 1 <= len(number) <= 8
    )


def is_alone(words: list[str]) -> bool:
    """The words after `run` and `stack`."""
    return not words


def is_question(words: list[str]) -> bool:
    """The words after `focus`."""
    return len(words) == 2 and words[0] in SIDES and is_view(words[1])


def is_file(words: list[str]) -> bool:
    """The words after `dump`."""
    return len(words) == 1 and is_name(words[0])


def are_ids(words: list[str]) -> bool:
    """The words after `lookup`."""
    return 2 <= len(words) <= 1 + MAX_IDS and is_name(words[0]) and all(map(is_id, words[1:]))


def is_load(words: list[str]) -> bool:
    """The words after `gen`."""
    return len(words) == 1 and is_number(words[0]) and len(words[0]) <= 3 and 1 <= int(words[0]) <= MAX_LOAD


# the first word of each call, with what has to be true of those after it
FORMS = {"run": is_alone, "stack": is_alone, "focus": is_question, "dump": is_file, "lookup": are_ids, "gen": is_load}
# those whose script is on standard input
READING = ("run", "focus", "stack")


def has_form(words: list[str]) -> bool:
    """Whether the program takes these words."""
    return bool(words) and words[0] in FORMS and FORMS[words[0]](words[1:])
