"""The wheel is of one platform where it has the library, though Python loads that by ctypes and compiles nothing."""
import os

from setuptools import setup
from setuptools.dist import Distribution

try:
    from wheel.bdist_wheel import bdist_wheel
except ImportError:
    from setuptools.command.bdist_wheel import bdist_wheel

HERE = os.path.dirname(os.path.abspath(__file__))


class OfPlatform(bdist_wheel):
    def get_tag(self):
        if os.path.exists(os.path.join(HERE, 'lifecrib', 'liblifecrib.so')):
            return 'py3', 'none', 'manylinux_2_17_x86_64'
        return 'py3', 'none', 'any'


setup(cmdclass={'bdist_wheel': OfPlatform}, distclass=Distribution)
