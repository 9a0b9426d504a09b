#!/usr/bin/env python3
"""Runs the lines of docs/PORT.md as they stand, and then that of README.md, over a pseudo-terminal.

  bench/records/page.py

Each block of the page that is marked `console` is run at the top of the repository: a line that begins with `$ ` is a command, and the lines after it
are what it writes. /dev/ttyACM0 is made the name of a terminal with a small chip behind it, and the home folder an empty one. README's line is run over a
new chip, and has to end with 0. The program has to be built (bin/build).
"""
import os
import re
import subprocess
import sys
import tempfile

from desk import TOP, Served, check

DEVICE = "/dev/ttyACM0"
MARK = "==== "


def blocks():
    with open(os.path.join(TOP, "docs", "PORT.md"), encoding="utf-8") as page:
        return re.findall(r"^```console\n(.*?)^```$", page.read(), re.M | re.S)


def commands():
    """The commands of the page, each with what it is to write."""
    all_of = []
    for line in "".join(blocks()).splitlines():
        if line.startswith("$ "):
            all_of.append((line[2:], []))
        else:
            all_of[-1][1].append(line)
    return all_of


def written(lines):
    """What each of these commands writes, over a new chip and in a new home."""
    with Served() as there, tempfile.TemporaryDirectory() as home:
        link = os.path.join(home, "port")
        os.symlink(there.name, link)
        script = "".join(f"echo '{MARK}{at}'\n{words.replace(DEVICE, link)}\n" for at, words in enumerate(lines))
        env = {name: value for name, value in os.environ.items() if name != "ZWAVE_RECORDS"}
        said = subprocess.run(["bash"], input=script, env={**env, "HOME": home}, cwd=TOP, stdout=subprocess.PIPE, stderr=subprocess.STDOUT, text=True).stdout
    return re.split(rf"^{MARK}\d+\n", said.replace(link, DEVICE).replace(home, "~"), flags=re.M)[1:]


def main():
    wanted = commands()
    for (words, lines), part in zip(wanted, written([words for words, _ in wanted]), strict=True):
        is_so = part.splitlines() == lines
        if not is_so:
            print(part)
        check(is_so, words)
    with open(os.path.join(TOP, "README.md"), encoding="utf-8") as page:
        (line,) = re.findall(rf"^ +(ZWAVE_RECORDS=.* {DEVICE} .*)$", page.read(), re.M)
    (said,) = written([line])
    check("ended with 0: " in said, line)


if __name__ == "__main__":
    sys.exit(main())
