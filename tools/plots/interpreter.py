"""Finds a python3 that has matplotlib. This file runs under any python3."""

import importlib.util
import os
import subprocess
import sys

SYSTEM = "/usr/bin/python3"
INSTALL = "apt-get install python3-matplotlib"
MISSING = "no python3 here has matplotlib; install it by: " + INSTALL
PICTURES, TABLES = ("matplotlib", "tomllib"), ("tomllib",)
PROBE = "import sys, importlib.util as u; sys.exit(not all(map(u.find_spec, sys.argv[1:])))"


def has(python, modules):
    """Whether this interpreter is there, and has these modules."""
    if python == sys.executable:
        return all(map(importlib.util.find_spec, modules))
    try:
        return subprocess.call([python, "-c", PROBE, *modules], stderr=subprocess.DEVNULL) == 0
    except OSError:
        return False


def found(modules=PICTURES):
    """The interpreter that has what is needed: this one, else the system's, else None."""
    return next((python for python in (sys.executable, SYSTEM) if has(python, modules)), None)


def go_on_with(python):
    """Starts this program anew under the interpreter, where it isn't the one that runs."""
    if python != sys.executable:
        sys.stdout.flush()
        os.execv(python, [python] + sys.argv)
