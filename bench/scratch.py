"""Builds a scratch program over some of this repository's crates, for what the program itself offers no way to measure;
and reads the other scripts of this folder, which have no ending, as modules."""
import os
import pathlib
import shutil
import subprocess
import sys
from importlib.machinery import SourceFileLoader
from importlib.util import module_from_spec, spec_from_loader

ROOT = pathlib.Path(__file__).resolve().parent.parent


def lines_of_crates():
    """The lines of crates.txt, by the crates' names."""
    lines = (ROOT / "crates.txt").read_text().splitlines()
    return {line.split(":")[0]: line for line in lines if ":" in line and not line.startswith("#")}


def below(crates, lines):
    """These crates and all that they stand on, without the libraries of the toolchain."""
    found = set()
    left = [crate for crate in crates if crate in lines]
    while left:
        crate = left.pop()
        if crate not in found:
            found.add(crate)
            left += [other for other in lines[crate].split(":")[1].split() if other in lines]
    return found


def link(source, to):
    """Makes a file stand in a second place too, or a copy of it where the places lie on different disks."""
    try:
        os.link(source, to)
    except OSError:
        shutil.copy2(source, to)


def copy_crate(crate, folder):
    """A crate's sources, with the library that was built of them, if it was: what is proved isn't proved again then."""
    own = ROOT / "crates" / crate
    for part in ("src", "specs", "proofs"):
        if (own / part).is_dir():
            shutil.copytree(own / part, folder / "crates" / crate / part)
    if (own / "out" / "rlib").is_dir():
        shutil.copytree(own / "out" / "rlib", folder / "crates" / crate / "out" / "rlib", copy_function=link)


def built(folder, name, text, libraries):
    """A program of one file over some libraries, in a repository of its own, as the path of its executable."""
    folder = pathlib.Path(folder)
    lines = lines_of_crates()
    crates = below(libraries, lines)
    for crate in crates:
        copy_crate(crate, folder)
    shutil.copy(ROOT / "HANDLES", folder)
    crate = folder / "crates" / name
    (crate / "src").mkdir(parents=True)
    (crate / "src" / "main.rt").write_text(text)
    own = f"{name}: {' '.join(libraries)}"
    (folder / "crates.txt").write_text("\n".join([*(lines[it] for it in sorted(crates)), own]) + "\n")
    subprocess.run(["git", "init", "-q", folder], check=True)
    done = subprocess.run(["rt", "run", "--", "/dev/null", "1"], cwd=crate, capture_output=True, text=True)
    program = crate / "out" / name
    if not program.exists():
        sys.exit(done.stdout + done.stderr)
    return str(program)


def loaded(name):
    """A script of this folder as a module."""
    loader = SourceFileLoader(name, str(ROOT / "bench" / name))
    module = module_from_spec(spec_from_loader(name, loader))
    loader.exec_module(module)
    return module
