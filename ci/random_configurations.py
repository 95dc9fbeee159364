"""Random devices, and pairs of configurations near to them, for comparisons of the choice of resources."""
import random
from typing import Any, Dict, Iterator, List, Sequence, Tuple, TypeVar

from vindaesk.resources.configuration import DEFAULT, Configuration
from vindaesk.resources.locale_data import REPRESENTATIVES

LOCALES = [tuple(it.split("_")) for it in """
    _ _ en_ en_US en_GB en_AU en_001 en_PR es_ es_US es_MX es_419 es_ES es_AR pt_ pt_BR pt_PT pt_AO zh_ zh_TW zh_HK
    zh_MO zh_CN sr_ sr_RS fil_ tl_ ar_EG ar_MA ar_015 ar_ xx_YY xx_ de_AT de_ fr_CA fr_
""".split()]
KNOWN = [it.partition("-") for words in REPRESENTATIVES.values() for it in words.split()]
VALUES = {
    "mcc": (310, 311), "mnc": (4, 0xFFFF), "direction": (1, 2), "smallest_width": (320, 360, 600),
    "width": (320, 400, 600, 820), "height": (400, 480, 700), "size": (1, 2, 3, 4), "long": (1, 2), "round": (1, 2),
    "wide_gamut": (1, 2), "hdr": (1, 2), "orientation": (1, 2, 3), "ui_type": (2, 3, 4, 7), "night": (1, 2),
    "density": (120, 160, 213, 240, 260, 320, 480, 640, 0xFFFE, 0xFFFF), "touch": (1, 2, 3), "keyboard": (1, 2, 3),
    "keys_hidden": (1, 2, 3), "nav_hidden": (1, 2), "navigation": (1, 2, 3, 4), "screen_width": (320, 640),
    "screen_height": (240, 480), "sdk": (4, 21, 23), "minor": (1,),
}
PAIRS = 20
Pair = Tuple[Configuration, Configuration]
# fields of a configuration: numbers, and the texts of its locale
Fields = Dict[str, Any]
Word = TypeVar("Word", int, str)


class Source:
    """Random configurations of a seed."""

    def __init__(self, seed: int):
        self.random = random.Random(seed)

    def some(self, words: Sequence[Word]) -> Word:
        """One of some words, or as often nothing."""
        return self.random.choice(tuple(words) + (type(words[0])(),) * len(words))

    def locale(self) -> Fields:
        if self.random.random() < 0.7:
            language, region = self.random.choice(LOCALES)
        else:
            language, _, region = self.random.choice(KNOWN)
            region = self.random.choice((region, "", "US", "150", "DE"))
        few = self.random.random() < 0.2 and language
        script, variant, numbering = (self.some(it) if few else "" for it in (
            ("Latn", "Cyrl", "Hant", "Hans"), ("posix", "1996"), ("latn", "arab")))
        return {"language": language, "region": region, "script": script, "variant": variant, "numbering": numbering}

    def device(self) -> Configuration:
        fields: Fields = {name: self.some(them) for name, them in VALUES.items()}
        return Configuration(**fields, **self.locale())

    def near(self, device: Configuration) -> Configuration:
        """A configuration of few fields, most of them those of a device."""
        whole: Fields = {**vars(self.device()), **self.locale()}
        fields: Fields = {}
        for name in whole:
            chance = self.random.random()
            fields[name] = getattr(DEFAULT if chance < 0.72 else device, name) if chance < 0.9 else whole[name]
        if not fields["language"]:
            fields.update(dict.fromkeys(("region", "script", "variant", "numbering"), ""))
        return Configuration(**fields)


def devices(seed: int, count: int) -> Iterator[Tuple[Configuration, List[Pair]]]:
    """Devices, and of each the pairs that are compared for it."""
    source = Source(seed)
    for _ in range(count):
        device = source.device()
        yield device, [(source.near(device), source.near(device)) for _ in range(PAIRS)]
