"""Tags the wheel with a kind of processor if it holds the library for C, which runs on one kind alone."""

from glob import glob

from setuptools import setup

try:
    from setuptools.command.bdist_wheel import bdist_wheel
except ImportError:  # before setuptools 70.1
    from wheel.bdist_wheel import bdist_wheel


class TaggedWheel(bdist_wheel):
    def finalize_options(self):
        super().finalize_options()
        self.root_is_pure = not glob("dovecounter/libdovecounter.so.*")

    def get_tag(self):
        return "py3", "none", super().get_tag()[2]


setup(cmdclass={"bdist_wheel": TaggedWheel})
