#!/usr/bin/env python3
"""Runs the commands that pages show, and compares what they print with what the pages say.

Usage: pages.py FOLDER PAGE..

In each block between ```console and ``` a line that begins with "$ " is a command, and the lines up to the next one are
what it prints, standard output and standard error as they come. All commands of all pages run in FOLDER, one after the
other, each in a shell that finds the status of the one before in $?. Blanks at the ends of lines do not count.

A command is skipped where a tool that it begins with is not installed, and where it begins with a file of build/ and
NATIVE is no in the environment: then this host does not run images by itself.
"""

import os
import shutil
import subprocess
import sys

TOOLS = ("cmp", "ls", "mandoc", "objdump", "readelf", "size")


class Command:
    def __init__(self, line, number):
        self.line, self.number, self.prints = line, number, []


def commands_of(page):
    """The commands of a page, with what it says that they print."""
    found, is_console = [], False
    with open(page, encoding="utf-8") as text:
        for number, line in enumerate(text, 1):
            line = line.rstrip()
            if line.startswith("```"):
                is_console = line == "```console"
            elif is_console and line.startswith("$ "):
                found.append(Command(line[2:], number))
            elif is_console and found:
                found[-1].prints.append(line)
            elif is_console:
                sys.exit(f"{page}:{number}: a console block begins with a line '$ COMMAND'")
    return found


def is_left_out(line):
    word = line.split()[0]
    if word in TOOLS and not shutil.which(word):
        return True
    return word.startswith("build/") and os.environ.get("NATIVE") == "no"


def run(command, folder, status):
    """The lines that a command prints in a shell whose last status was this one, and its own status."""
    script = f"(exit {status})\n{command.line}\n"
    done = subprocess.run(
        ["sh", "-c", script], cwd=folder, stdin=subprocess.DEVNULL, stdout=subprocess.PIPE, stderr=subprocess.STDOUT, timeout=60
    )
    lines = done.stdout.decode("utf-8", "backslashreplace").splitlines()
    return [line.rstrip() for line in lines], done.returncode


def trimmed(lines):
    """The lines without empty ones at the end."""
    while lines and not lines[-1]:
        lines = lines[:-1]
    return lines


def check(page, folder):
    """Runs the commands of a page and returns how many printed something else."""
    failed, skipped, status, was_left_out = 0, 0, 0, False
    commands = commands_of(page)
    for command in commands:
        if is_left_out(command.line) or was_left_out and "$?" in command.line:
            was_left_out = True
            skipped += 1
            continue
        was_left_out = False
        lines, status = run(command, folder, status)
        if trimmed(lines) != trimmed(command.prints):
            failed += 1
            print(f"FAILED {page}:{command.number}: $ {command.line}")
            print("  the page says:", *trimmed(command.prints), sep="\n    ")
            print("  it printed:", *trimmed(lines), sep="\n    ")
    if not commands:
        print(f"FAILED {page}: it shows no command")
        failed += 1
    print(f"{page}: {len(commands)} commands, {failed} failed, {skipped} skipped")
    return failed


def main():
    folder, pages = sys.argv[1], sys.argv[2:]
    sys.exit(1 if sum([check(page, folder) for page in pages]) else 0)


main()
