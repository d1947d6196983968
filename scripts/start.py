#!/usr/bin/env python3
"""Starts the script by whose name it is called: `rim-manifest`, `rim-match`, `rim-compare`, `rim-page`, `rim-verify` and
`rim-endorse` are links to this file, and copies of it where they are installed. The modules of a script are in the folder scripts beside it, or in
../share/rim where it is installed.

It is read by older versions of Python too, so that they can say that they are; the modules are not.
"""
import signal

# At SIGINT Python prints a traceback. These lines come first, so that the signal ends the script without a word. Before this file's first
# line Python itself starts, and an interrupt in that time still prints one.
if signal.getsignal(signal.SIGINT) is signal.default_int_handler:
    signal.signal(signal.SIGINT, signal.SIG_DFL)

import importlib  # noqa: E402, the lines above come first
import os  # noqa: E402
import sys  # noqa: E402

# The folders of each script's modules, with a module that is in each. What starts it is `main` of the first.
SCRIPTS = {
    "rim-manifest": (("vmm", "main"), ("finder", "search"), ("outside", "ending")),
    "rim-match": (("matcher", "main"), ("finder", "search"), ("comparer", "report"), ("outside", "ending")),
    "rim-compare": (("comparer", "main"), ("outside", "ending")),
    "rim-page": (("page", "main"), ("comparer", "report"), ("endorser", "comid"), ("finder", "progress"), ("matcher", "nearest"), ("outside", "ending")),
    "rim-verify": (("verifier", "main"), ("comparer", "report"), ("outside", "cbor")),
    "rim-endorse": (("endorser", "main"), ("comparer", "report"), ("outside", "cbor")),
}


def listed(names, last):
    return ", ".join(names[:-1]) + " " + last + " " + names[-1]


def refuse(name, why):
    sys.stderr.write(name + ": " + why + "\n")
    sys.exit(3)


def script_at(path):
    """The folder and the name of the script: of the links from a path to this file, the last one that has the name of a script counts."""
    found = None
    while True:
        folder, name = os.path.split(path)
        folder = os.path.realpath(folder)
        if name in SCRIPTS:
            found = folder, name
        path = os.path.join(folder, name)
        if not os.path.islink(path):
            return found or refuse(name, "it is started by this name, expected %s" % listed(list(SCRIPTS), "or"))
        path = os.path.join(folder, os.readlink(path))


def modules_of(here, name):
    """The folder that has the modules of a script."""
    needed = SCRIPTS[name]
    for folder in (os.path.join(here, "scripts"), os.path.join(os.path.dirname(here), "share", "rim")):
        if all(os.path.isfile(os.path.join(folder, package, module + ".py")) for package, module in needed):
            return folder
    packages = listed([package for package, _ in needed], "and")
    return refuse(name, "no folders %s in %s or in ../share/rim, expected its modules there" % (packages, os.path.join(here, "scripts")))


def start():
    here, name = script_at(os.path.abspath(__file__))
    if sys.version_info[:2] < (3, 9):
        refuse(name, "Python %d.%d runs it (%s), expected Python 3.9 or later" % (sys.version_info[0], sys.version_info[1], sys.executable))
    folder = modules_of(here, name)
    sys.path.insert(0, folder)
    # Python keeps what it compiles beside the modules, but not where they are installed: nobody would take it away.
    sys.dont_write_bytecode = folder != os.path.join(here, "scripts")
    # `rim` is looked for beside the script, whatever links led to it.
    sys.argv[0] = os.path.join(here, name)
    return importlib.import_module(SCRIPTS[name][0][0] + ".main").main(sys.argv[1:])


if __name__ == "__main__":
    sys.exit(start())
