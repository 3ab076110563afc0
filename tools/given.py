"""What the tools share that are given a program."""
import os
import shutil
import sys


def program(page, most=1):
    """The program that is given first, of at most so many words; the tool's page where there is none."""
    words = sys.argv[1:]
    if not 1 <= len(words) <= most or words[0].startswith("-"):
        sys.exit(page)
    path = os.path.abspath(words[0])
    if not os.path.isfile(path) or not os.access(path, os.X_OK):
        sys.exit(f"{words[0]} is no program: ./gablecumin --build makes crates/gablecumin/out/gablecumin")
    return path


def need(command, package):
    """Ends the tool where a command isn't on the path."""
    if shutil.which(command) is None:
        sys.exit(f"there is no {command}: Debian's package {package} has it")
