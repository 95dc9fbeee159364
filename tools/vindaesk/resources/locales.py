"""Locales as Android compares them: the likely script of a language, the parents of a locale, and which of two regions
is nearer to a third. After LocaleData.cpp of Android 10, which was read for it; the tables are in locale_data.py."""
from functools import lru_cache
from typing import Dict, FrozenSet, List, Sequence, Tuple

from .locale_data import LIKELY_SCRIPTS, PARENTS, REPRESENTATIVES

# a language, and a region or ""
Locale = Tuple[str, str]
ROOT: Locale = ("", "")
# these are read as es-419 where there is no es-419
SPECIAL_SPANISH = (("es", "US"), ("es", "MX"))
LATIN_AMERICA: Locale = ("es", "419")
RIGHT_TO_LEFT = frozenset("Adlm Arab Armi Avst Hebr Mand Mani Mend Nkoo Palm Phnx Rohg Samr Sarb Syrc Thaa".split())


def split(word: str) -> Locale:
    """The locale that is written `en` or `en-US`."""
    language, _, region = word.partition("-")
    return language, region


@lru_cache(maxsize=None)
def scripts() -> Dict[str, str]:
    """The likely script of each locale."""
    return {word: script for script, words in LIKELY_SCRIPTS.items() for word in words.split()}


@lru_cache(maxsize=None)
def parents() -> Dict[str, Dict[Locale, Locale]]:
    """Of each script, the parents of the locales whose parent is not their language."""
    return {
        script: {split(word): split(parent) for parent, words in rows.items() for word in words.split()}
        for script, rows in PARENTS.items()
    }


@lru_cache(maxsize=None)
def representatives() -> Dict[str, FrozenSet[Locale]]:
    """Of each script, the locales that represent others."""
    return {script: frozenset(map(split, words.split())) for script, words in REPRESENTATIVES.items()}


@lru_cache(maxsize=4096)
def likely_script(language: str, region: str) -> str:
    """The script in which a language is written in a region, or "" where it is not known."""
    known = scripts()
    return known.get("%s-%s" % (language, region) if region else language) or known.get(language) or ""


def is_right_to_left(language: str, region: str, script: str = "") -> bool:
    """Whether a locale is written from right to left."""
    return (script or likely_script(language, region)) in RIGHT_TO_LEFT


def parent(locale: Locale, script: str) -> Locale:
    """The parent of a locale: of a region, one of the table or its language; of a language, the root."""
    return parents().get(script, {}).get(locale, (locale[0], "")) if locale[1] else ROOT


def ancestors(locale: Locale, script: str, stops: Sequence[Locale]) -> Tuple[List[Locale], int]:
    """A locale and its ancestors up to the first that is one of `stops`, and which of them that is, or -1."""
    found = []
    while True:
        found.append(locale)
        if locale in stops:
            return found, stops.index(locale)
        locale = parent(locale, script)
        if locale == ROOT:
            return found, -1


def distance(locale: Locale, script: str, requested: Sequence[Locale]) -> int:
    """How many steps lead from a locale by a common ancestor to the first one of `requested`, which are its
    ancestors."""
    found, index = ancestors(locale, script, requested)
    return len(found) + index - 1


def code(region: str) -> int:
    """The number by which equal regions are put in order: two letters before three digits."""
    if len(region) == 3:
        first, second, third = (ord(it) - ord("0") for it in region)
        return (0x80 | third << 2 | second >> 3) << 8 | (second & 7) << 5 | first
    return int.from_bytes(region.encode("latin-1").ljust(2, b"\0"), "big")


def spanish(one: Locale, other: Locale) -> Locale:
    """`one`, or es-419 in place of es-US and es-MX where the other one is none of these."""
    is_alone = one in SPECIAL_SPANISH and other not in SPECIAL_SPANISH
    return LATIN_AMERICA if is_alone and other != LATIN_AMERICA else one


@lru_cache(maxsize=4096)
def compare_regions(one: str, other: str, requested: Tuple[str, str, str]) -> int:
    """Above 0 where the region `one` is nearer to what is requested (language, script, region) than `other`, below 0
    where it is farther, 0 where they are the same."""
    language, script, region = requested
    if one == other:
        return 0
    left, right = spanish((language, one), (language, other)), spanish((language, other), (language, one))
    found, index = ancestors((language, region), script, (left, right))
    if index >= 0:
        return 1 if index == 0 else -1
    far = distance(right, script, found) - distance(left, script, found)
    if far:
        return far
    chosen = representatives().get(script, frozenset())
    represents = (left in chosen) - (right in chosen)
    return represents or code(right[1]) - code(left[1])


@lru_cache(maxsize=1024)
def is_close_to_us_english(region: str) -> bool:
    """Whether English of a region is nearer to that of the US than to international English."""
    return ancestors(("en", region), "Latn", (("en", ""), ("en", "001")))[1] == 0
