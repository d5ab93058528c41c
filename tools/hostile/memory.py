#!/usr/bin/env python3
"""Refuses each want of memory of some commands, one after another, and says what came of it.

    memory.py PROGRAM [--most N]     for each command below: how often it wants memory; then a run for each want in which that one is
                                     refused, and one in which that and each behind it is (N of them at most for each, evenly chosen; 2,000
                                     if not given). Status 6 with the line of it, or the usual status; the output a front of the usual one;
                                     what stands in a log or module a front of the usual one

A C compiler is needed, and a program that is linked to the system's C library.
"""
import os
import subprocess
import sys
import tempfile

HERE = os.path.dirname(os.path.abspath(__file__))
PRODUCT = """shared { int a[64]; int b[64]; int c[64]; }
int cell(int r, int q) { int v = 0; for (int k = 0; k < 8; k += 1) { v += a[r * 8 + k] * b[k * 8 + q]; } return v; }
main {
  parbegin routine[64](int w, int id) { a[id] = id / 8 + id % 8; if (id / 8 == id % 8) { b[id] = 2; } } parend;
  parbegin routine[64](int w, int id) { c[id] = cell(id / 8, id % 8); } parend;
  int s = 0;
  for (int i = 0; i < 64; i += 1) { s += c[i]; }
  print("sum", s, "last", c[63]);
}
"""
SCRIPT = "[[worker]]\nnumber = 0\nstop_at = 20\n[[worker]]\nnumber = 1\nlose = [1, 3]\nrepeat = [2]\nhold = [4]\n"
EVENTS = "claim 0\nclaim 1\nfinish 1\nfinish 0\narrive 1\nclaim 2\nstop 2\nclaim 3\nfinish 3\n"
# The words, whether the order of threads may change what a log holds, and the file that is written.
COMMANDS = [
    (["check", "p.csl"], None, True),
    (["eval", "p.csl"], None, True),
    (["run", "p.csl", "--workers", "0", "--steps", "--log", "l"], "l", True),
    (["run", "p.csl", "--workers", "2", "--steps", "--log", "l", "--report"], "l", False),
    (["run", "p.csl", "--workers", "2", "--script", "s", "--steps"], None, True),
    (["sim", "p.csl", "e", "--log", "l"], "l", True),
    (["build", "p.csl", "m"], "m", True),
    (["exec", "k", "--workers", "2"], None, True),
    (["gen", "7", "2"], None, True),
    (["selfrun", "7", "2"], None, True),
]
LAST = b"out of memory\n"


def run(program, folder, words, written, more):
    """Returns status, output, error stream, and what the written file holds."""
    if written and os.path.exists(os.path.join(folder, written)):
        os.remove(os.path.join(folder, written))
    env = {**os.environ, "LD_PRELOAD": os.path.join(folder, "refuse.so"), **more}
    ran = subprocess.run([program, *words], capture_output=True, cwd=folder, env=env, timeout=60)
    held = b""
    if written and os.path.exists(os.path.join(folder, written)):
        with open(os.path.join(folder, written), "rb") as file:
            held = file.read()
    return ran.returncode, ran.stdout, ran.stderr, held


def chosen(all_wants, most):
    if all_wants <= most:
        return range(1, all_wants + 1)
    return sorted({1 + at * (all_wants - 1) // (most - 1) for at in range(most)})


def is_well(got, usual, same_log):
    """Whether this may come where memory is refused."""
    status, out, err, held = got
    if (status, out) == usual[:2] and (held == usual[3] or not same_log):
        return True
    if status != 6 or not err.endswith(LAST) or not usual[1].startswith(out):
        return False
    return not same_log or usual[3].startswith(held)


def tried(program, folder, words, written, same_log, most):
    """Prints a row of one command; returns how many runs ended otherwise than they may."""
    usual = run(program, folder, words, written, {"COUNT": os.path.join(folder, "count")})
    with open(os.path.join(folder, "count"), "rb") as file:
        wants = int.from_bytes(file.read(), sys.byteorder)
    wrong, refused, done = 0, 0, 0
    for number in chosen(wants, most):
        for more in ({}, {"REFUSE_REST": "1"}):
            got = run(program, folder, words, written, {"REFUSE": str(number), **more})
            done += 1
            refused += got[0] == 6
            if not is_well(got, usual, same_log):
                wrong += 1
                print(f"{' '.join(words)}: want {number} {more}: {got}")
    print(f"{' '.join(words)}: status {usual[0]}, {wants} wants, {done} runs, {refused} of status 6, {wrong} wrong", flush=True)
    return wrong


def main(program, most):
    with tempfile.TemporaryDirectory() as folder:
        library = os.path.join(folder, "refuse.so")
        subprocess.run(["cc", "-O2", "-shared", "-fPIC", "-o", library, os.path.join(HERE, "refuse_memory.c")], check=True)
        for name, text in (("p.csl", PRODUCT), ("s", SCRIPT), ("e", EVENTS)):
            with open(os.path.join(folder, name), "w") as file:
                file.write(text)
        subprocess.run([program, "build", "p.csl", "k"], cwd=folder, check=True)
        wrong = sum(tried(program, folder, words, written, same_log, most) for words, written, same_log in COMMANDS)
    print(f"{wrong} wrong")
    return 1 if wrong else 0


if __name__ == "__main__":
    if len(sys.argv) not in (2, 4) or sys.argv[1].startswith("-") or sys.argv[2:3] not in ([], ["--most"]):
        sys.exit(__doc__)
    sys.exit(main(os.path.abspath(sys.argv[1]), int(sys.argv[3]) if sys.argv[3:] else 2000))
