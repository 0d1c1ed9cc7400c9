"""Makes a wheel for one platform, which ERD_PLATFORM names, of version ERD_VERSION. The shared library of that platform lies in
src/erd; no code is compiled here."""

import os

from setuptools import Distribution, setup
from wheel.bdist_wheel import bdist_wheel


class OfOnePlatform(Distribution):
    """The package has a shared library, so it belongs where compiled modules stand."""

    def has_ext_modules(self):
        return True


class Wheel(bdist_wheel):
    """A wheel for every Python 3 of one platform."""

    def get_tag(self):
        return 'py3', 'none', os.environ['ERD_PLATFORM']


setup(version=os.environ['ERD_VERSION'], cmdclass={'bdist_wheel': Wheel}, distclass=OfOnePlatform)
