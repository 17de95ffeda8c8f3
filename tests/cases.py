"""Runs the cases of a folder through a program and compares output, error output and status.

A case is a file NAME.case with sections, each begun by a line `== KIND`:
  args    the program's words, one a line; \\n, \\t, \\\\ and \\xHH stand for bytes
  stdin   standard input (nothing where it is left out)
  env     lines NAME=value that are added to the environment
  file P  a file of that path in the folder where the program runs; `folder P` makes a folder,
          and `file P times N` has the text N times
  out     standard output (nothing where it is left out)
  err     standard error (likewise)
  status  the exit status (0 where it is left out)
Usage: cases.py PROGRAM FOLDER [NAME ..]
"""
import difflib
import os
import re
import subprocess
import sys
import tempfile


def unescaped(text):
    simple = {"n": b"\n", "t": b"\t", "\\": b"\\"}
    out, at, data = b"", 0, text.encode()
    for found in re.finditer(rb"\\(n|t|\\|x[0-9a-fA-F]{2})", data):
        name = found.group(1).decode()
        out += data[at:found.start()] + (simple[name] if name in simple else bytes([int(name[1:], 16)]))
        at = found.end()
    return out + data[at:]


def read_case(path):
    sections, name = {}, None
    with open(path, encoding="utf-8") as lines:
        for line in lines:
            if line.startswith("== "):
                name = line[3:].strip()
                sections[name] = ""
            elif name is not None:
                sections[name] += line
    return sections


def run_case(program, sections):
    with tempfile.TemporaryDirectory() as folder:
        for kind, text in sections.items():
            if kind.startswith("file "):
                name, _, times = kind[5:].partition(" times ")
                with open(os.path.join(folder, name), "w", encoding="utf-8") as out:
                    out.write(text * int(times or "1"))
            elif kind.startswith("folder "):
                os.mkdir(os.path.join(folder, kind[7:]))
        env = dict(os.environ)
        env.update(line.split("=", 1) for line in sections.get("env", "").splitlines())
        words = [unescaped(line) for line in sections.get("args", "").splitlines()]
        ran = subprocess.run([program, *words], input=sections.get("stdin", "").encode(), env=env, cwd=folder,
                             capture_output=True, timeout=60, check=False)
    return ran


def differences(sections, ran):
    told = []
    for kind, got in (("out", ran.stdout), ("err", ran.stderr)):
        want = sections.get(kind, "")
        got = got.decode("utf-8", "backslashreplace")
        if got != want:
            told += difflib.unified_diff(want.splitlines(True), got.splitlines(True), f"expected {kind}", f"{kind}")
    want = int(sections.get("status", "0").strip() or "0")
    if ran.returncode != want:
        told.append(f"status {ran.returncode}, expected {want}\n")
    return told


def main():
    program, folder, names = os.path.abspath(sys.argv[1]), sys.argv[2], sys.argv[3:]
    passed = failed = 0
    for file in sorted(os.listdir(folder)):
        name, ending = os.path.splitext(file)
        if ending != ".case" or (names and name not in names):
            continue
        sections = read_case(os.path.join(folder, file))
        told = differences(sections, run_case(program, sections))
        if told:
            failed += 1
            print(f"FAILED {name}")
            sys.stdout.writelines(line if line.endswith("\n") else line + "\n" for line in told)
        else:
            passed += 1
    print(f"{passed} passed, {failed} failed")
    return 1 if failed else 0


if __name__ == "__main__":
    sys.exit(main())
