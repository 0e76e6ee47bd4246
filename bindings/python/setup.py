"""Builds the extension module over libiolite.a: that of bindings/c/out, or of the folder that IOLITE_LIB names."""
import os

from setuptools import Extension, setup

HERE = os.path.dirname(os.path.abspath(__file__))
LIBRARY = os.path.join(os.environ.get("IOLITE_LIB", os.path.join(HERE, "..", "c", "out")), "libiolite.a")

setup(ext_modules=[Extension(
    "iolite._iolite",
    sources=["iolite/_iolite.c"],
    include_dirs=[os.path.join(HERE, "..", "c")],
    extra_objects=[LIBRARY],
    libraries=["m"],
)])
