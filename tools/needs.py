"""What a tool needs beside Python: it says in one line what is missing and what makes it, and what goes on while it
waits; and another tool, as a module."""
import importlib.machinery
import importlib.util
import os
import shutil
import subprocess
import sys
import time

TOP = os.path.dirname(os.path.dirname(os.path.realpath(__file__)))
PROGRAMS = ("awreg", "awshow")
BUILD = "tools/install proves and builds the programs"
MADE = {
    "rt": "put the folder `bin` of the Rattle kit on the path (README.md says which kit)",
    "awreg": BUILD,
    "awshow": BUILD,
    "cc": "install gcc",
    "cargo": "install cargo",
    "node": "install nodejs",
}
SECONDS = 10


def name():
    return "tools/" + os.path.basename(sys.argv[0])


def place_of(program):
    """Where a program is: on the path, or as `rt run` leaves it; or None."""
    built = f"{TOP}/crates/{program}/out/{program}"
    return shutil.which(program) or (built if os.access(built, os.X_OK) else None)


def require(*programs):
    """Where these programs are. A tool for which one is missing ends here."""
    places = {it: place_of(it) for it in programs}
    if missing := [it for it, place in places.items() if place is None]:
        how = dict.fromkeys(MADE.get(it, f"install {it}") for it in missing)
        sys.exit(f"{name()}: no {' and no '.join(missing)}: {'; '.join(how)}")
    return places


def require_top():
    """Ends a tool that was not started at the top of the repository."""
    if not os.path.isfile("crates.txt"):
        sys.exit(f"{name()}: run it at the top of the repository, where crates.txt is")


def other_tool(name):
    """Another tool of this folder, as a module."""
    loader = importlib.machinery.SourceFileLoader(name.replace("-", "_"), f"{TOP}/tools/{name}")
    module = importlib.util.module_from_spec(importlib.util.spec_from_loader(loader.name, loader))
    loader.exec_module(module)
    return module


def run_aloud(what, words, **more):
    """Runs a command as `subprocess.run` does, and keeps what it prints. Each ten seconds a line on standard error says
    what it is at, and for how long."""
    started = time.monotonic()
    given = {"stdout": subprocess.PIPE, "stderr": subprocess.PIPE, **more}
    with subprocess.Popen(words, text=True, errors="replace", **given) as running:
        while True:
            try:
                output, errors = running.communicate(timeout=SECONDS)
                return subprocess.CompletedProcess(words, running.returncode, output, errors)
            except subprocess.TimeoutExpired:
                print(f"{what}, {time.monotonic() - started:.0f} s", file=sys.stderr, flush=True)
            except BaseException:
                running.terminate()
                raise
