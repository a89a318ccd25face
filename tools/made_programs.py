"""Programs that a script of this folder makes for itself.

The text of such a program is tools/NAME/program.txt, since a file of Rattle stands in a crate's src/ alone. It is
proved and built in a copy of the crates that it uses. Their libraries are taken over where they are built. Else they
are proved there, which takes long.
"""
import shutil
import subprocess
import sys
from pathlib import Path
from typing import NamedTuple

import programs


class Made(NamedTuple):
    """A program: its name, the libraries that it uses, and the words of a first call, which has to succeed."""

    name: str
    uses: tuple
    words: tuple


def listed() -> dict:
    """The lines of crates.txt, each by its crate's name."""
    lines = (programs.TOP / "crates.txt").read_text().splitlines()
    return {line.split()[0].rstrip(":"): line for line in lines if line.strip() and not line.startswith("#")}


def below(names, lines: dict) -> dict:
    """The lines of these crates of the repository, and of all that they stand on. Other names are the kit's."""
    found = {}
    for name in names:
        if name in lines:
            found.update({name: lines[name], **below(lines[name].partition(":")[2].split(), lines)})
    return found


def left_out(folder: str, names: list) -> list:
    """What isn't copied: all that is made of a crate but its library."""
    return [name for name in names if Path(folder).name == "out" and name != "rlib"]


def copy_crates(made: Made, top: Path) -> Path:
    """Copies the crates that a program uses into an empty folder, and gives the folder of the program's own crate."""
    lines = below(made.uses, listed())
    for name in lines:
        shutil.copytree(programs.TOP / "crates" / name, top / "crates" / name, ignore=left_out)
    shutil.copy(programs.TOP / "HANDLES", top)
    (top / "crates.txt").write_text("\n".join([*lines.values(), f"{made.name}: {' '.join(made.uses)}", ""]))
    crate = top / "crates" / made.name
    (crate / "src").mkdir(parents=True)
    shutil.copy(programs.TOP / "tools" / made.name / "program.txt", crate / "src/main.rt")
    return crate


def built(made: Made, top: Path) -> programs.Program:
    """The program, proved and built in an empty folder."""
    crate = copy_crates(made, top)
    ran = subprocess.run(
        ["rt", "run", "--", *map(str, made.words)],
        cwd=crate,
        stdin=subprocess.DEVNULL,
        stdout=subprocess.PIPE,
        stderr=subprocess.STDOUT,
        text=True,
    )
    if ran.returncode != 0:
        sys.exit(f"{ran.stdout}{programs.SCRIPT}: rt run of {made.name} ends with status {ran.returncode}")
    return programs.Program(crate / "out" / made.name, {}, ())
