#!/usr/bin/env python3
"""refused_growths.py PROGRAM [WORD ..] [--first N] [--step N] [< INPUT]: runs a built program, or a built program of tests, with
these words and this input once for each allocation that it makes, which is then refused.

It prints how many allocations there are and how the whole run ends, then how many of the other runs ended in which way, and a line
for each that wrote something and ended otherwise. The allocator of the C library is stood in for by LD_PRELOAD, so that the program
itself is the one that was built.

refused_growths.py --try NAME [--most N] [--step N]: does the same with the program of tools/refused_growths/NAME.txt, which needs no
proof, for its first N allocations or so, or for one in so many of them: rt try runs it with all its checks. The program makes as many
small allocations first as its argument says, so that the one with a fixed number is another of its own each time, and judges itself
what is left behind a refused one. It prints how many runs ended with which status, and a line for each that did not end. The program
says what its statuses mean; 42 is that none of its own was refused since it makes fewer, and 43 that one before its own was."""

import argparse
import collections
import os
import subprocess
import sys
import tempfile

from program_texts import placed

SHIM = r"""
#include <errno.h>
#include <fcntl.h>
#include <stdio.h>
#include <stdlib.h>
#include <sys/syscall.h>
#include <unistd.h>
static long nth = -1, count;
extern void *__libc_malloc(size_t), *__libc_calloc(size_t, size_t), *__libc_realloc(void *, size_t), *__libc_memalign(size_t, size_t);
static int fails(void) {
  if (nth < 0) { const char *text = getenv("FAIL_NTH"); nth = text ? atol(text) : 0; }
  if (++count != nth) return 0;
  errno = ENOMEM;
  return 1;
}
void *malloc(size_t n) { return fails() ? 0 : __libc_malloc(n); }
void *calloc(size_t a, size_t b) { return fails() ? 0 : __libc_calloc(a, b); }
void *realloc(void *p, size_t n) { return fails() ? 0 : __libc_realloc(p, n); }
void *aligned_alloc(size_t a, size_t n) { return fails() ? 0 : __libc_memalign(a, n); }
int posix_memalign(void **p, size_t a, size_t n) { return fails() || !(*p = __libc_memalign(a, n)) ? ENOMEM : 0; }
void _exit(int status) {
  const char *path = getenv("FAIL_TELL");
  char text[24];
  int file = path ? open(path, O_WRONLY | O_CREAT | O_TRUNC, 0600) : -1;
  if (file >= 0) { write(file, text, snprintf(text, sizeof text, "%ld", count)); close(file); }
  syscall(SYS_exit_group, status);
  for (;;) {}
}
"""


def run(words, given, shim, **named):
    """The status and the output of one run."""
    env = dict(os.environ, LD_PRELOAD=shim, **named)
    done = subprocess.run(words, input=given, env=env, capture_output=True, timeout=120, check=False)
    return done.returncode, done.stdout


def tell(number, ended):
    """Prints what a run wrote that had an allocation refused."""
    print(f"allocation {number}: status {ended[0]}, {ended[1][-300:].decode(errors='replace')}")


def main(words, first, step):
    """Runs the program with nothing refused, and then with each allocation refused in turn."""
    words[0] = os.path.abspath(words[0])
    given = b"" if sys.stdin.isatty() else sys.stdin.buffer.read()
    with tempfile.TemporaryDirectory() as folder:
        shim, told = os.path.join(folder, "shim.so"), os.path.join(folder, "told")
        compiler = ["cc", "-O2", "-shared", "-fPIC", "-w", "-x", "c", "-", "-o", shim]
        subprocess.run(compiler, input=SHIM.encode(), check=True)
        whole = run(words, given, shim, FAIL_TELL=told)
        with open(told, encoding="ascii") as file:
            count = int(file.read())
        print(f"{count} allocations, status {whole[0]}, {len(whole[1])} bytes written")
        ends = collections.Counter()
        for number in range(first, count + 1, step):
            ended = run(words, given, shim, FAIL_NTH=str(number))
            wrote = "the same" if ended[1] == whole[1] else "something else" if ended[1] else "nothing"
            ends[ended[0], wrote] += 1
            if wrote == "something else":
                tell(number, ended)
    for (status, wrote), times in sorted(ends.items()):
        print(f"{times} times status {status}, {wrote} written")


def try_each(name, most, step):
    """Tries the program of a text file with each of its first allocations refused in turn."""
    with placed("refused_growths", name) as folder, tempfile.TemporaryDirectory() as cases:
        for first in range(0, most, step):
            for ending, text in (("", ""), (".args", f"{first}\n")):
                with open(os.path.join(cases, f"{first:06}{ending}"), "w", encoding="ascii") as file:
                    file.write(text)
        words = ["rt", "try", "--fail-alloc", str(most), "--cases", cases]
        told = subprocess.run(words, cwd=folder, stdout=subprocess.PIPE, stderr=subprocess.STDOUT, text=True, check=False).stdout
    lines = [line for line in told.splitlines() if line.startswith("case=")]
    for line in [line for line in lines if "run=ended" not in line] or told.splitlines()[-1:]:
        print(line)
    for end, times in sorted(collections.Counter(" ".join(line.split()[1:3]) for line in lines).items()):
        print(f"{times} times {end}")


if __name__ == "__main__":
    options = argparse.ArgumentParser(description=__doc__, formatter_class=argparse.RawDescriptionHelpFormatter)
    options.add_argument("words", nargs="*", metavar="WORD")
    options.add_argument("--first", type=int, default=1)
    options.add_argument("--step", type=int, default=1)
    options.add_argument("--try", dest="name")
    options.add_argument("--most", type=int, default=2000)
    chosen = options.parse_args()
    if chosen.name:
        try_each(chosen.name, chosen.most, chosen.step)
    elif chosen.words:
        main(chosen.words, chosen.first, chosen.step)
    else:
        options.error("no program")
