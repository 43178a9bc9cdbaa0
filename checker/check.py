#!/usr/bin/env python3
"""check.py COMMAND WORD..: the second checker, as a script that can be run from any folder, also
through a link. `check.py --help` lists its commands.

Its modules are the package whose folder this file lies in. The package is loaded from there, by its
place, so that the search path of Python is left as it is: `python3 -I` has no folder of a script on
it.
"""
import os
import sys
from importlib import import_module
from importlib.util import module_from_spec, spec_from_file_location


def load_package(name):
    """Loads the package whose folder this file lies in, under this name."""
    folder = os.path.dirname(os.path.realpath(__file__))
    spec = spec_from_file_location(name, os.path.join(folder, "__init__.py"),
                                   submodule_search_locations=[folder])
    sys.modules[name] = module_from_spec(spec)
    spec.loader.exec_module(sys.modules[name])


if __name__ == "__main__":
    load_package("checker")
    sys.exit(import_module("checker.commands").main())
