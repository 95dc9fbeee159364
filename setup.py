"""What pyproject.toml cannot say of the wheel: its tag, which is that of the program, and what is made when it is
built: the folder `share` of the package, manual pages and completions."""
import os
import shutil
import sys

sys.path.insert(0, os.path.join(os.path.dirname(os.path.abspath(__file__)), "tools"))

from setuptools import Distribution, setup
from setuptools.command.build_py import build_py
# setuptools has this one of its own under the old name
from distutils.command.install_data import install_data
from wheel.bdist_wheel import bdist_wheel

from vindaesk.command_line import catalogue, version
from vindaesk.installing import contents, sources, wheel
from vindaesk.program import process


class BuildPackage(build_py):
    """The package as all installed forms have it, with its folder `share`."""

    def run(self):
        if self.editable_mode:
            super().run()
        else:
            # what an earlier call has left there would be in the wheel too
            shutil.rmtree(self.build_lib, ignore_errors=True)
            contents.write(contents.package(process.path(), version.commit()), self.build_lib)


class InstallHelp(install_data):
    """The manual pages and completions."""

    def run(self):
        made = contents.help_files(catalogue.every(), sources.date())
        contents.write(made, self.install_dir)
        self.outfiles = [os.path.join(self.install_dir, path) for path in made]


class Package(Distribution):
    """What is built: the program makes it one for a kind of system."""

    def has_ext_modules(self):
        return True


class BuildWheel(bdist_wheel):
    """A wheel for every Python, and for systems that have what the program needs."""

    def get_tag(self):
        return "py3", "none", wheel.platform(process.path())


setup(
    distclass=Package,
    cmdclass={"build_py": BuildPackage, "install_data": InstallHelp, "bdist_wheel": BuildWheel},
    data_files=[("share", [])],
)
