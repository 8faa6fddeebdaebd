"""The package is plain Python with a shared object in it, which is for one kind of machine."""
from setuptools import setup
from setuptools.dist import Distribution
from wheel.bdist_wheel import bdist_wheel


class WithSharedObject(Distribution):
    def has_ext_modules(self):
        return True


class AnyPython(bdist_wheel):
    """Any Python 3 loads it: it uses no interface of the interpreter's."""

    def get_tag(self):
        return "py3", "none", super().get_tag()[2]


setup(distclass=WithSharedObject, cmdclass={"bdist_wheel": AnyPython})
