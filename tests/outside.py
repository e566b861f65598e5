"""Runs a program from outside, and counts what of it is not as expected."""
import subprocess
import sys

made = 0
wrong = 0


def run(program, *words, **options):
    """The program's status, standard output and standard error."""
    options = {"stdout": subprocess.PIPE, "stderr": subprocess.PIPE, **options}
    ended = subprocess.run([program, *words], stdin=subprocess.DEVNULL, timeout=60, **options)
    return ended.returncode, (ended.stdout or b"").decode(), (ended.stderr or b"").decode()


def check(what, got, expected):
    global made, wrong
    made += 1
    if got != expected:
        wrong += 1
        print(f"{what}:\n  expected {expected!r}\n  got      {got!r}")


def finish():
    """Ends the test: with status 1 where anything was wrong."""
    if wrong:
        sys.exit(f"{wrong} of {made} comparisons are wrong")
    print(f"ok, {made} comparisons")


def build(*command):
    """Runs a compiler; without its program there is nothing to test."""
    if subprocess.run(command).returncode != 0:
        sys.exit(f"{command[0]} failed")
