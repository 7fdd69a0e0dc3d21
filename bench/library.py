#!/usr/bin/env python3
"""library.py: builds crates/nv_c/out/libnv_c.a, right after a run of `rt ci` in this checkout that passed.

`rt ci` proves nv_c and builds no archive. `rt lib` builds it, and has no use for the libraries that `rt ci` made: it would prove the 25 crates
below nv_c a second time, some 35 minutes of processor time. So where a checkout has no other libraries, this builds the archive over those of
`rt ci`. rattle then checks nv_c alone once more, over the same files as `rt ci` did, and compiles what it has proved: some two minutes.

Where `rt lib` or `rt check` left libraries of their own here, each with a stamp of what it is made from, `rt ci` has put these back, and
`rt lib` goes on from them: it takes what is up to date and proves the rest.

Libraries without a stamp have to be of this run of `rt ci`, so `./check` removes older ones before it."""
import os
import shutil
import subprocess
import sys

sys.dont_write_bytecode = True
ROOT = os.path.dirname(os.path.dirname(os.path.abspath(__file__)))
NV_C = os.path.join(ROOT, "crates", "nv_c")


def toolchain():
    """The module of `rt` that knows a crate's place and the words for rattle."""
    rt = shutil.which("rt")
    if not rt:
        sys.exit("library.py: the toolchain's command rt is not on the path")
    sys.path.insert(0, os.path.dirname(os.path.realpath(rt)))
    import rtlib

    return rtlib


def is_of_rt_ci(crate):
    return os.path.isdir(crate.rlib) and not os.path.exists(os.path.join(os.path.dirname(crate.rlib), "stamp"))


def main():
    if sys.argv[1:]:
        sys.exit(__doc__)
    rtlib = toolchain()
    crate = rtlib.Crate(NV_C, ROOT, {})
    if not all(is_of_rt_ci(library) for library in crate.below()):
        sys.exit(subprocess.run(["rt", "lib"], cwd=NV_C, check=False).returncode)
    rtlib.guarded()
    held = rtlib.lock([*crate.below(), crate])
    os.makedirs(os.path.join(NV_C, "out"), exist_ok=True)
    status = crate.build_static([])
    for folder in held:
        os.close(folder)
    sys.exit(status)


if __name__ == "__main__":
    main()
