#!/usr/bin/env python3
"""figures.py NAME [FOLDER]: builds the program of tools/figures/NAME.txt over the crates of the repository, runs it and prints its
lines. The built program is put into FOLDER, if one is named, and can be run from there again.

The program is proved and built by LLVM in a copy of the repository, and stands in no gate: what it prints is a time or a size, and
differs from run to run."""

import os
import shutil
import subprocess
import sys

from program_texts import placed


def main(name, keep=None):
    with placed("figures", name) as folder:
        status = subprocess.run(["rt", "run"], cwd=folder, check=False).returncode
        if keep and status == 0:
            shutil.copy(os.path.join(folder, "out", os.path.basename(folder)), keep)
    return status


if __name__ == "__main__":
    if len(sys.argv) not in (2, 3):
        sys.exit(__doc__)
    sys.exit(main(*sys.argv[1:]))
