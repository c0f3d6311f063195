#!/usr/bin/env python3
"""Runs what a page shows: in each block marked `console`, a line that begins with `$ ` is a command, and what stands
below it is what it must print. They run in order in the current folder, in which `examples` is that of the clone. The
status is 0 where each command ended with 0 and printed what is shown, and 1 else.

usage: scripts/documented.py PAGE ..
"""
import re
import subprocess
import sys


def commands(page):
    """Each command with what it must print."""
    with open(page) as f:
        blocks = re.findall(r"^```console\n(.*?)^```", f.read(), re.M | re.S)
    for block in blocks:
        for part in re.split(r"^\$ ", block, flags=re.M)[1:]:
            command, _, wanted = part.partition("\n")
            yield command, wanted.rstrip("\n")


def run(command):
    """The status of a command, and what it printed. It has a minute."""
    words = ["timeout", "60", "sh", "-c", command]
    done = subprocess.run(words, stdin=subprocess.DEVNULL, capture_output=True, text=True)
    return done.returncode, done.stdout, done.stderr


def main():
    wrong = tried = 0
    for page in sys.argv[1:]:
        for command, wanted in commands(page):
            status, told, faults = run(command)
            tried += 1
            if status or told.rstrip("\n") != wanted:
                wrong += 1
                print(f"$ {command}\n{told}\n{faults}(wanted)\n{wanted}")
    print(f"{tried} commands, {wrong} of them otherwise than shown")
    return 1 if wrong or not tried else 0


if __name__ == "__main__":
    sys.exit(main())
