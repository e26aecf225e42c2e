"""The kit's compiler and prover, called over the libraries that rt has proved.

`library` and `check-edits` import it. rt itself proves each crate below once more before it builds a static library, or tries an edit, where `rt ci`
has just proved them all; and of a must-fail edit it prints only the first thing that the prover said.
"""
import os
import pathlib
import shutil
import subprocess

ROOT = pathlib.Path(__file__).resolve().parent.parent
CRATES = ROOT / "crates"


def kit():
    """The folder of the kit."""
    command = shutil.which("rt")
    if not command:
        raise SystemExit("rt, the command of the Rattle kit, is not on the PATH")
    return pathlib.Path(os.path.realpath(command)).parent.parent


def below(crate):
    """The crates on which one rests, and the libraries of the kit that it lists."""
    for line in (ROOT / "crates.txt").read_text(encoding="utf-8").splitlines():
        name, _, names = line.partition(":")
        if name.removesuffix(" staticlib") == crate:
            return [other for other in names.split() if (CRATES / other).is_dir()], [other for other in names.split() if not (CRATES / other).is_dir()]
    raise SystemExit(f"crates.txt has no crate {crate}")


def library(crate):
    return CRATES / crate / "out" / "rlib" / f"{crate}.rlib"


def left_by_ci(crate):
    """Has `rt ci` left all libraries on which a crate rests? Those that other commands leave have a stamp, and are no part of what it proved."""
    return all((library(other) / "format").exists() and not (library(other).parent / "stamp").exists() for other in below(crate)[0])


def words(crate):
    """What the kit's command is given for a library of the repository, in its folder or in a copy of it."""
    crates, others = below(crate)
    found = ["--crate-name", crate, "src/lib.rt"]
    for name in ["std", *others]:
        found += ["--extern", f"{name}={kit() / 'rlibs' / name}.rlib"]
    found += ["-L", f"dependency={kit() / 'rlibs'}"]
    for other in crates:
        found += ["--extern", f"{other}={library(other)}", "-L", f"dependency={library(other).parent}"]
    found += ["--antt-project", kit() / "rattle" / "logic" / "antt-project.json", "--logic-built", kit() / "logic_built"]
    return [*found, "--links", f"{crate}="]


def rattle(command, crate, folder, *more):
    """Runs the kit's command, and gives what it ended with and what it said."""
    called = [kit() / "bin" / "rattle", command, *words(crate), *more]
    how = {"stdin": subprocess.DEVNULL, "stdout": subprocess.PIPE, "stderr": subprocess.STDOUT, "errors": "replace"}
    return subprocess.run(called, cwd=folder, text=True, **how)


def rt(crate, *command):
    """Runs rt in a crate's folder, and gives what it ended with and what it said."""
    how = {"stdin": subprocess.DEVNULL, "stdout": subprocess.PIPE, "stderr": subprocess.STDOUT, "errors": "replace"}
    return subprocess.run(["rt", *command], cwd=CRATES / crate, text=True, **how)
