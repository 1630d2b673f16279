"""Compares the skeletons that a compiler makes with those of skeletons.txt.

usage: skeletons.py VALFLOW [--only NAME]

VALFLOW is the program; it is called as `VALFLOW compile PROG CELLS DUAL`. Of the cells that it writes, BUF cells are taken out
and arcs are followed back over them; kinds and ports have to be those of the case, and the number of BUF cells too. The last
line is `N passed, N failed`; the status is 1 where a case failed.
"""
import os
import subprocess
import sys
import tempfile


def read_cases(path):
    cases = []
    case = None
    with open(path, encoding="ascii") as f:
        text = f.read()
    for line in text.split("\n"):
        word, _, rest = line.partition(" ")
        if word == "case":
            case = {"name": rest, "source": [], "cells": [], "buffers": None}
            cases.append(case)
        elif word == "source":
            case["source"].append(rest)
        elif word == "cells":
            case["cells"].append(rest)
        elif word == "buffers":
            case["buffers"] = int(rest)
        elif line and word != "#":
            raise SystemExit("not a line of a case: " + line)
    return cases


def skeleton_of(text):
    """The cells that are no BUF, as lines of a case, and how many BUF cells there are."""
    cells = []
    for line in text.split("\n")[1:-2]:
        words = line.split(" ")
        stage, ports, dests = words.index("stage"), words.index("ports"), words.index("dests")
        cells.append((words[1:stage], words[ports + 1:dests]))

    def origin(c):
        while cells[c][0] == ["BUF"]:
            c = int(cells[c][1][0][1:])
        return c

    def port(word):
        if word[0] != "@":
            return word
        cell, loaded, value = word[1:].partition("!")
        return "@%d" % origin(int(cell)) + loaded + value

    lines = []
    for number, (kind, ports) in enumerate(cells):
        if kind != ["BUF"]:
            lines.append(" ".join([str(number)] + kind + ["ports"] + [port(p) for p in ports]))
    return lines, len(cells) - len(lines)


def failure(program, case, folder):
    """What is wrong with a case, or None."""
    source, cells, dual = (os.path.join(folder, name) for name in ("prog", "cells", "dual"))
    with open(source, "w", encoding="ascii", newline="") as f:
        f.write("\n".join(case["source"]) + "\n")
    run = subprocess.run([program, "compile", source, cells, dual], capture_output=True, text=True)
    if run.returncode != 0:
        return "status %d: %s" % (run.returncode, run.stdout.strip() or run.stderr.strip())
    try:
        with open(cells, encoding="ascii") as f:
            lines, buffers = skeleton_of(f.read())
    except (OSError, ValueError, IndexError) as fault:
        return "no cell file: %s" % fault
    for want, got in zip(case["cells"], lines):
        if want != got:
            return "wanted `%s`, got `%s`" % (want, got)
    if len(lines) != len(case["cells"]):
        return "wanted %d cells, got %d" % (len(case["cells"]), len(lines))
    if buffers != case["buffers"]:
        return "wanted %d buffers, got %d" % (case["buffers"], buffers)
    told = "skeleton %d\nbuffers %d\n" % (len(lines), buffers)
    if run.stdout != told:
        return "told `%s`" % run.stdout.strip()
    return None


def main(words):
    if len(words) not in (1, 3) or (len(words) == 3 and words[1] != "--only"):
        raise SystemExit(__doc__)
    cases = read_cases(os.path.join(os.path.dirname(os.path.abspath(__file__)), "skeletons.txt"))
    if len(words) == 3:
        cases = [case for case in cases if case["name"] == words[2]]
    failed = 0
    with tempfile.TemporaryDirectory() as folder:
        for case in cases:
            wrong = failure(words[0], case, folder)
            if wrong:
                failed += 1
                print("%s: %s" % (case["name"], wrong))
    print("%d passed, %d failed" % (len(cases) - failed, failed))
    return 1 if failed or not cases else 0


if __name__ == "__main__":
    sys.exit(main(sys.argv[1:]))
