"""For scripts that go on from what `rt ci` proves: a copy, outside the checkout, of some crates and those below them, in which it has passed, and the
words by which rattle checks or builds a crate there. What `rt ci` passed before in any checkout on this machine it takes from there, so the
copy then takes seconds; else it takes as long as a first run. The kit is found from the command rt, whose own words for a crate these are."""
import contextlib
import os
import re
import shutil
import subprocess
import sys
import tempfile

sys.dont_write_bytecode = True
HERE = os.path.dirname(os.path.dirname(os.path.abspath(__file__)))
RT = shutil.which("rt") or sys.exit("the command rt is not on the path")
sys.path.insert(0, os.path.dirname(os.path.realpath(RT)))
import rtlib  # noqa: E402


def listed():
    """The lines of crates.txt, by the crate that each declares, and what each crate uses."""
    with open(f"{HERE}/crates.txt", encoding="utf-8") as it:
        lines = [re.match(r"((\w+)[^:#]*):([^#]*)", line) for line in it]
    return {it[2]: it[0].strip() for it in lines if it}, {it[2]: it[3].split() for it in lines if it}


def with_below(names, uses):
    return {*names}.union(*[with_below([it for it in uses[name] if it in uses], uses) for name in names])


@contextlib.contextmanager
def proved(*names):
    """The copy, without edits; what `rt ci` says there is in target/proved.log, and where it fails nothing goes on."""
    lines, uses = listed()
    room = tempfile.mkdtemp()
    try:
        for name in (wanted := with_below(names, uses)):
            leave = lambda at, found: {"out", "must-fail", "more-edits"} & {*found} if os.path.dirname(at) == f"{HERE}/crates" else ()
            shutil.copytree(f"{HERE}/crates/{name}", f"{room}/crates/{name}", ignore=leave)
        with open(f"{room}/crates.txt", "w", encoding="utf-8") as it:
            it.writelines(f"{lines[name]}\n" for name in wanted)
        if os.path.isfile(f"{HERE}/HANDLES"):
            shutil.copy(f"{HERE}/HANDLES", room)
        os.makedirs(f"{HERE}/target", exist_ok=True)
        with open(f"{HERE}/target/proved.log", "w", encoding="utf-8") as log:
            if subprocess.run([RT, "ci"], cwd=room, stdin=subprocess.DEVNULL, stdout=log, stderr=subprocess.STDOUT).returncode:
                sys.exit(f"not proved: {' '.join(names)}, or a crate below (target/proved.log says why)")
        yield room
    finally:
        shutil.rmtree(room, ignore_errors=True)


KIT = rtlib.KIT


def words(room, name, verb, *more):
    """The command that checks or builds the crate of the copy; it runs in the crate's folder, or in a copy of that."""
    crate = rtlib.Crate(f"{room}/crates/{name}", room, {})
    crate.out = sys.stderr
    return [rtlib.RATTLE, verb, *crate.words(["--jobs", "1"], keeps=False), *more]
