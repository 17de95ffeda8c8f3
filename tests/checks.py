"""Checks the scripts of a folder's tables through `PROGRAM -n` and compares error output and status.

A table is a file NAME.rows of lines `EXPECTED | SCRIPT`; other lines are empty or begin with `#`. EXPECTED is `fine`, or a
syntax fault as `KIND LINE BYTE`. In SCRIPT \\n, \\t, \\\\ and \\xHH stand for bytes, and \\*N{TEXT\\} for N times TEXT. A script goes
in by `-c`, or by a file where it holds a NUL byte. Nothing may run: standard output must be empty. Then the script is run without `-n`: one
with a fault tells the same, and of one without a tree must be built, whatever its commands do then.
Usage: checks.py PROGRAM FOLDER
"""
import os
import re
import subprocess
import sys
import tempfile

from cases import unescaped

KINDS = ["UnexpectedToken", "UnexpectedEnd", "UnclosedQuote", "UnclosedSubstitution", "HereDocMissing", "BadName",
         "BadArithmetic", "TooDeep", "TooLong", "NotInProfile"]


def read_rows(path):
    with open(path, encoding="utf-8") as lines:
        for number, line in enumerate(lines, 1):
            line = line.rstrip("\n")
            if line and not line.startswith("#"):
                expected, _, script = line.partition(" |")
                script = re.sub(r"\\\*(\d+)\{(.*?)\\\}", lambda found: found.group(2) * int(found.group(1)), script[1:])
                yield number, expected, unescaped(script)


def wanted(expected):
    if expected == "fine":
        return 0, b""
    kind, line, byte = expected.split()
    return 2, f"kshtree: syntax fault {KINDS.index(kind) + 1} at line {line}, byte {byte}: {kind}\n".encode()


def run(program, options, script):
    with tempfile.TemporaryDirectory() as folder:
        words = ["-c", script]
        if b"\0" in script:
            words = ["script"]
            with open(os.path.join(folder, "script"), "wb") as out:
                out.write(script)
        return subprocess.run([program, *options, *words], cwd=folder, capture_output=True, timeout=60, check=False)


def is_built(ran):
    return b"syntax fault" not in ran.stderr


def main():
    program, folder = os.path.abspath(sys.argv[1]), sys.argv[2]
    passed = failed = 0
    for file in sorted(os.listdir(folder)):
        if not file.endswith(".rows"):
            continue
        for number, expected, script in read_rows(os.path.join(folder, file)):
            for options in (["-n"], []):
                ran = run(program, options, script)
                told = (ran.returncode, ran.stderr, ran.stdout) == (*wanted(expected), b"")
                if told or not options and expected == "fine" and is_built(ran):
                    passed += 1
                else:
                    failed += 1
                    print(f"FAILED {file}:{number}{' -n' if options else ''}: expected {expected}, got status {ran.returncode}, {ran.stderr!r}, {ran.stdout!r}")
    print(f"{passed} checks passed, {failed} failed")
    return 1 if failed else 0


if __name__ == "__main__":
    sys.exit(main())
