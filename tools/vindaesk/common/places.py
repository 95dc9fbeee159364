"""Where the files beside the modules are."""
import os

PACKAGE = os.path.dirname(os.path.dirname(os.path.realpath(__file__)))
INSTALLED = os.path.join(PACKAGE, "share")
# the folder with VERSION, docs/ and the program: the folder `share` of an installed package, or the checkout around it
TOP = INSTALLED if os.path.isdir(INSTALLED) else os.path.dirname(os.path.dirname(PACKAGE))


def version() -> str:
    """The version of the tools and of the program beside them."""
    with open(os.path.join(TOP, "VERSION"), encoding="utf-8") as file:
        return "vindaesk " + file.read().strip()
