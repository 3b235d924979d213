#!/usr/bin/env python3
"""Times `gkey match` on a graph whose terms were searched for: by the hashes that are the same in every run they crowd one
range of numbers, so that each look-up walks past many others.

Usage: bench/crowded_names.py [TERMS]   (200000, if none is given)

It needs a C compiler, cc. The search takes seconds, and the slow run a minute or so. Beside the crowded graph stands one of as
many terms as long that were not searched for. Each is read twice: as ever, where the system gives a seed for the hashes, and
where it gives none, so that the hashes are the same in every run. For that a library is loaded before the C library whose
`getentropy` fails.

It makes two graphs in a temporary folder, and prints the seconds of the four runs.
"""

import pathlib
import subprocess
import tempfile

import graphs
from asking import asked
from timing import PROGRAM, built, timed

# Literals of 16 characters whose hash by std's FoldHasher, from its own first state, lies in a range. The range has fewer
# numbers than there are terms, so that many walk through most of it.
SEARCH = r"""
#include <stdint.h>
#include <stdio.h>
#include <stdlib.h>
#include <string.h>

static const uint64_t MULTIPLIER = 0x9e3779b97f4a7c15u;

static uint64_t folded(uint64_t a, uint64_t b) {
    unsigned __int128 product = (unsigned __int128)a * b;
    return (uint64_t)product ^ (uint64_t)(product >> 64);
}

int main(int count, char **words) {
    uint64_t terms = strtoull(words[1], 0, 10), width = terms / 64 * 63, least = 1u << 30;
    static uint32_t four[65536];
    for (int n = 0; n < 65536; n++) {
        for (int place = 0; place < 4; place++) {
            four[n] |= (uint32_t)"0123456789abcdef"[n >> 4 * place & 15] << 8 * place;
        }
    }
    for (uint64_t round = 0;; round++) {
        uint64_t front = four[round & 0xffff] | 0x2d2d2d2d00000000u;
        uint64_t state = (0x243f6a8885a308d3u + 16) ^ front;
        for (uint64_t n = 0; n < 1ull << 32; n++) {
            uint64_t back = four[n & 0xffff] | (uint64_t)four[n >> 16] << 32;
            uint64_t hash = folded(folded(state, back ^ MULTIPLIER), MULTIPLIER) >> 33;
            if (hash - least < width) {
                printf("%.8s%.8s\n", (char *)&front, (char *)&back);
                if (--terms == 0) {
                    return 0;
                }
            }
        }
    }
}
"""

NO_ENTROPY = r"""
#include <errno.h>
#include <stddef.h>

int getentropy(void *bytes, size_t count) {
    errno = ENOSYS;
    return -1;
}
"""


def compiled(folder, name, source, *options):
    made = folder / name
    (folder / f"{name}.c").write_text(source)
    subprocess.run(["cc", "-O2", *options, "-o", made, folder / f"{name}.c"], check=True)
    return made


def write_graph(path, literals):
    with path.open("w", encoding="utf-8") as out:
        for literal in literals:
            out.write(f'<urn:s> <urn:p> "{literal}" .\n')
    return str(path)


def seconds(graph, keys, library=None):
    """The processor time of a run, in which the library is loaded first if there is one."""
    preload = ["env", f"LD_PRELOAD={library}"] if library else []
    return timed([*preload, str(PROGRAM), "match", graph, keys]).seconds


def main():
    words = asked(__doc__)
    terms = int(words[0]) if words else 200_000
    built()
    with tempfile.TemporaryDirectory() as name:
        folder = pathlib.Path(name)
        search = compiled(folder, "search", SEARCH)
        no_entropy = compiled(folder, "no_entropy.so", NO_ENTROPY, "-shared", "-fPIC")
        keys = folder / "keys.gk"
        keys.write_text(graphs.NO_KEY)
        found = subprocess.run([search, str(terms)], check=True, stdout=subprocess.PIPE, text=True).stdout.split()
        crowded = write_graph(folder / "crowded.nt", found)
        usual = write_graph(folder / "usual.nt", (f"{n:016x}" for n in range(terms)))
        print(f"{terms} terms: seconds with the system's seed, and with none")
        for kind, graph in [("usual", usual), ("crowded", crowded)]:
            print(f"{kind:>8} {seconds(graph, str(keys)):8.2f} {seconds(graph, str(keys), no_entropy):8.2f}", flush=True)


if __name__ == "__main__":
    main()
