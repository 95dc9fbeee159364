"""How the tools begin: where the compiled modules of the package are kept."""
import os
import shutil
import subprocess
import sys
from pathlib import Path
from typing import List

from running import TOP

# a tool that is a file can be run by its path still
LOADED = """import entry, vindaesk.low, colorsys, runpy, sys
runpy.run_path(entry.TOOLS + "/tool")
print(sys.pycache_prefix)
"""


def made(tools: Path, *beside: str) -> List[str]:
    """The compiled modules in the folder of the tools, and in out/ beside it, once the package was loaded."""
    (tools / "vindaesk").mkdir(parents=True)
    (tools / "tool").write_text("")
    for name in ("__init__.py", "low.py"):
        (tools / "vindaesk" / name).write_text("")
    for name in beside:
        (tools.parent / name).write_text("")
    shutil.copy(os.path.join(TOP, "tools", "entry.py"), tools)
    ended = subprocess.run([sys.executable, "-c", LOADED], stdout=subprocess.PIPE, cwd=str(tools), check=True)
    assert ended.stdout == b"None\n"
    return sorted(it.name.split(".")[0] for it in tools.parent.rglob("*.pyc") if it.name[:5] != "entry")


def test_a_checkout_keeps_those_of_the_package_alone_in_out(tmp_path: Path) -> None:
    assert made(tmp_path / "tools", "crates.txt") == ["__init__", "low"]
    assert not (tmp_path / "tools" / "vindaesk" / "__pycache__").exists()
    assert (tmp_path / "out" / "pycache").is_dir()


def test_elsewhere_they_are_beside_their_sources(tmp_path: Path) -> None:
    assert made(tmp_path / "tools") == ["__init__", "low"]
    assert (tmp_path / "tools" / "vindaesk" / "__pycache__").is_dir()
