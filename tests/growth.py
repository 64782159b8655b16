#!/usr/bin/env python3
"""Refuses the program each growth of its memory in turn, and looks at how it ends.

    python3 tests/growth.py PROGRAM

PROGRAM is the program itself, as the command bugassist leaves it in out/, and not the command. It has to be linked to the C
library at run time, and `cc` has to be there. Three calls are tried: the array example with a certificate, a check of that
certificate, and a loop with weights. Of each the first growth is refused, then the second, and so on to the last; and then
all from the first on, all from the second on, and so on. A growth is a call of malloc, calloc or realloc.

Each call has to end with status 13, or with the status, the text and the certificate that it has with ample memory. With 13
what is printed is a beginning of that text, and the file of the certificate is not there or holds a beginning of that
certificate. A line is printed for each call that ends otherwise, and the status is 1 where there is one.
"""

import concurrent.futures
import os
import shutil
import subprocess
import sys
import tempfile

ALLOCATOR = r"""
#define _GNU_SOURCE
#include <dlfcn.h>
#include <errno.h>
#include <fcntl.h>
#include <stdlib.h>
#include <unistd.h>

extern void *__libc_malloc(size_t);
extern void *__libc_calloc(size_t, size_t);
extern void *__libc_realloc(void *, size_t);

static unsigned long calls, from, to;

__attribute__((constructor)) static void begin(void) {
    const char *first = getenv("REFUSED_FROM"), *last = getenv("REFUSED_TO");
    from = first ? strtoul(first, 0, 10) : 0;
    to = last ? strtoul(last, 0, 10) : 0;
    calls = 0;
}

__attribute__((destructor)) static void end(void) {
    const char *name = getenv("GROWTHS");
    int file = name ? open(name, O_WRONLY | O_CREAT | O_TRUNC, 0644) : -1;
    char digits[24];
    int place = sizeof digits;
    do digits[--place] = '0' + calls % 10; while (calls /= 10);
    if (file >= 0 && write(file, digits + place, sizeof digits - place) < 0) _exit(99);
}

static int is_refused(void) {
    calls++;
    if (calls < from || calls > to) return 0;
    errno = ENOMEM;
    return 1;
}

void *malloc(size_t size) { return is_refused() ? 0 : __libc_malloc(size); }
void *calloc(size_t count, size_t size) { return is_refused() ? 0 : __libc_calloc(count, size); }
void *realloc(void *old, size_t size) { return is_refused() ? 0 : __libc_realloc(old, size); }
"""

CALLS = [
    ("localise with a certificate", "localise branches.c 1.txt --bound=1 --cert=c", "branches.c 1.txt"),
    ("check of that certificate", "check branches.c 1.txt given --bound=1", "branches.c 1.txt given"),
    (
        "localise with weights",
        "localise greatest.c four_readings.txt --weights=loop_fixed.weights --bound=4",
        "greatest.c four_readings.txt loop_fixed.weights",
    ),
]


class Trials:
    def __init__(self, program, folder):
        self.program = os.path.abspath(program)
        self.folder = folder
        self.library = os.path.join(folder, "allocator.so")
        source = os.path.join(folder, "allocator.c")
        with open(source, "w") as file:
            file.write(ALLOCATOR)
        subprocess.run(["cc", "-O1", "-shared", "-fPIC", "-o", self.library, source], check=True)

    def call(self, words, files, first, last):
        """How a call ends of which these growths are refused: its status, its text, its certificate, and its growths."""
        with tempfile.TemporaryDirectory(dir=self.folder) as here:
            for name in files.split():
                os.link(os.path.join(self.folder, name), os.path.join(here, name))
            refused = {"REFUSED_FROM": str(first), "REFUSED_TO": str(last)}
            counted = {"LD_PRELOAD": self.library, "GROWTHS": os.path.join(here, "growths")}
            try:
                done = subprocess.run(
                    [self.program, *words.split()],
                    cwd=here,
                    env={**refused, **counted},
                    stdout=subprocess.PIPE,
                    timeout=120,
                )
            except subprocess.TimeoutExpired:
                return "no end", b"", None, 0
            certificate = read(os.path.join(here, "c"))
            growths = int(read(os.path.join(here, "growths")) or 0)
            return done.returncode, done.stdout, certificate, growths

    def sweep(self, words, files, own, growths, all_behind):
        """How many calls ended with 13, with their own answer, and otherwise, of one for each growth."""
        counts = [0, 0, 0]

        def end(number):
            return self.call(words, files, number, 10**18 if all_behind else number)

        with concurrent.futures.ThreadPoolExecutor(max(1, (os.cpu_count() or 2) // 2)) as pool:
            for number, ended in enumerate(pool.map(end, range(1, growths + 2)), 1):
                kind = kind_of(ended, own)
                # The one behind the last is not reached.
                if number > growths and kind != 1:
                    kind = 2
                if kind == 2:
                    print(f"growth {number}: status {ended[0]}, printed {ended[1]!r}, certificate {ended[2]!r}")
                if number <= growths or kind == 2:
                    counts[kind] += 1
        return counts


def kind_of(ended, own):
    """0 for status 13 as it should be, 1 for the call's own answer, 2 for any other end."""
    status, text, certificate, _ = ended
    if (status, text, certificate) == own:
        return 1
    is_part = certificate is None or own[2] is not None and own[2].startswith(certificate)
    return 0 if status == 13 and own[1].startswith(text) and is_part else 2


def read(name):
    try:
        with open(name, "rb") as file:
            return file.read()
    except FileNotFoundError:
        return None


def main():
    if len(sys.argv) != 2:
        sys.exit(__doc__)
    data = os.path.join(os.path.dirname(os.path.abspath(__file__)), "..", "crates", "trials", "data")
    wrong = 0
    with tempfile.TemporaryDirectory() as folder:
        trials = Trials(sys.argv[1], folder)
        for name in {name for _, _, files in CALLS for name in files.split()} - {"given"}:
            shutil.copy(os.path.join(data, name), folder)
        for title, words, files in CALLS:
            *own, growths = trials.call(words, files, 0, 0)
            if own[2] is not None:
                with open(os.path.join(folder, "given"), "wb") as file:
                    file.write(own[2])
            print(f"{title}: status {own[0]}, {growths} growths")
            for all_behind in (False, True):
                memory, same, other = trials.sweep(words, files, tuple(own), growths, all_behind)
                wrong += other
                which = "that one and all behind it" if all_behind else "that one alone"
                print(f"  {which}: {memory} ended with 13, {same} with their own answer, {other} otherwise")
    sys.exit(1 if wrong else 0)


main()
