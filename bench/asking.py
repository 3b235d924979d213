"""The words of a script: `--help`, and packages that have to be there."""

import argparse
import shutil
import sys


def asks_help():
    """Whether the script is to say only what it is for. Then no program is looked for."""
    return not {"-h", "--help"}.isdisjoint(sys.argv[1:])


def asked(about):
    """The words behind the name of the script. With `--help` it prints what stands at its top, and ends."""
    parser = argparse.ArgumentParser(description=about, usage=argparse.SUPPRESS, formatter_class=argparse.RawDescriptionHelpFormatter)
    return parser.parse_known_args()[1]


def need(packages):
    """Ends the script where one of these commands is missing, and names its package of Debian."""
    missing = [package for command, package in packages.items() if shutil.which(command) is None]
    if missing:
        sys.exit("packages of Debian that are missing here: " + ", ".join(missing))
