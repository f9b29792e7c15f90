#!/usr/bin/env python3
"""Builds static libraries over what `rt ci` has just proved in this checkout, so that nothing below them is proved again.

    python3 tools/static_library.py NAME..      writes crates/NAME/out/libNAME.a

`rt ci` leaves each library that it proved in crates/NAME/out/rlib, but without the stamp by which `rt lib` takes one that
is there, so that `rt lib` proves all of them again, one after another. Here `rattle build` gets the words that `rt lib`
gives it, but for those by which it keeps its work. Ends with 1, and builds nothing, where a library below is missing, or has
a stamp: then it may be an older one, which `rt ci` has put back, and `rt lib` is quick."""

import os
import subprocess
import sys
from pathlib import Path

ROOT = Path(__file__).resolve().parent.parent
KIT = Path(subprocess.run(["rt", "doc"], check=True, capture_output=True, text=True).stdout.strip()).resolve().parent
sys.dont_write_bytecode = True
sys.path.insert(0, str(KIT / "bin"))
import rtlib  # noqa: E402


def build(crate):
    """Checks one crate from nothing and builds its archive: the exit status."""
    words = crate.words([], keeps=False)
    words += ["--toolchain", f"{KIT}/toolchain", "--backend", "llvm", "-o", f"out/lib{crate.name}.a"]
    os.makedirs(f"{crate.folder}/out", exist_ok=True)
    return crate.call(rtlib.RATTLE, "build", *words)


def main(names):
    crates = [rtlib.Crate(str(ROOT / "crates" / name), str(ROOT), {}) for name in names]
    below = {Path(library.rlib) for crate in crates for library in crate.below()}
    if not all(rlib.is_dir() and not (rlib.parent / "stamp").exists() for rlib in below):
        print("static_library.py: not every library below is as rt ci leaves it")
        return 1
    return int(any(build(crate) for crate in crates))


if __name__ == "__main__":
    sys.exit(main(sys.argv[1:]))
