#!/usr/bin/env python3
"""Writes the workload texts that `bench/serial` and `bench/files` run.

usage: texts.py FOLDER [files]

For `bench/serial`, each at a limit of the language:

resident  262144 small commands over 4 MiB, which is as much as the default buffer holds
evicting  262144 small commands over 16 MiB, four times the default buffer
stores    stores of 64 KiB each, as many as a text of 16 MiB has room for
loads     512 loads of 64 KiB, the most bytes that one workload may load
flushes   as many rounds as there are commands for of 256 small stores and a flush, over 16 MiB, which is 4096 pages: each once in
          order, and then at random
regions   262144 commands over 64 regions of 1 MiB, which take turns, so that their pages interleave in the order of filling; each
          is unmapped in the end, and then loaded from, stored to and unmapped in vain

For `bench/files`, over one file of 256 MiB:

fill      a load in each of its pages, in order: pages come in, and leave clean
store     a store in each of its pages, in order: pages come in, and are written back
random    accesses of 64 bytes over its first 16 MiB, four times the default buffer; one of ten is a store

The numbers come from a fixed generator, so each run writes the same texts.
"""
import os
import sys

KIB = 1024
MIB = 1024 * KIB
COMMANDS = 262144
REGIONS = 64
ACCESS = 64 * KIB
TEXT = 16 * MIB
PAGE = 4 * KIB
FILE = "data.bin"
FILE_BYTES = 256 * MIB


class Draws:
    """A linear congruential generator with 31 bits of state."""

    def __init__(self, seed):
        self.state = seed

    def below(self, limit):
        self.state = (self.state * 1103515245 + 12345) % (1 << 31)
        high = self.state >> 16
        self.state = (self.state * 1103515245 + 12345) % (1 << 31)
        return ((high << 15) | (self.state >> 16)) % limit


def head(length):
    return [f"map A memory {length} rw", "script s"]


def small_store(draws, name, off, size):
    first = draws.below(256)
    data = bytes((first + j) % 256 for j in range(size))
    return f"store {name} {off} {data.hex()}"


def small_access(draws, name, start, length):
    """A load or a store of few bytes, of a region's bytes from `start` on."""
    size = 1 + draws.below(16)
    off = start + draws.below(length - size)
    if draws.below(2) == 0:
        return f"load {name} {off} {size}"
    return small_store(draws, name, off, size)


def small_commands(length, seed):
    draws = Draws(seed)
    return head(length) + [small_access(draws, "A", 0, length) for _ in range(COMMANDS)]


def large_stores():
    lines = head(16 * MIB)
    written = sum(len(line) + 1 for line in lines)
    n = 0
    while True:
        data = bytes((n + j) % 251 for j in range(ACCESS))
        line = f"store A {n * ACCESS} {data.hex()}"
        if written + len(line) + 1 > TEXT:
            return lines
        lines.append(line)
        written += len(line) + 1
        n += 1


def large_loads():
    lines = head(16 * MIB)
    for n in range(512):
        if n % 8 == 0:
            lines.append(f"store A {(n * ACCESS + 77) % (16 * MIB)} {bytes([n % 256]).hex()}")
        lines.append(f"load A {n * ACCESS % (16 * MIB)} {ACCESS}")
    return lines


def flushes():
    draws = Draws(4)
    lines = head(16 * MIB)
    pages = 16 * MIB // PAGE
    for n in range(COMMANDS // 257 * 256):
        page = n if n < pages else draws.below(pages)
        size = 1 + draws.below(16)
        lines.append(small_store(draws, "A", page * PAGE + draws.below(PAGE - size), size))
        if n % 256 == 255:
            lines.append("flush")
    return lines


def regions():
    draws = Draws(5)
    names = [f"R{n}" for n in range(REGIONS)]
    pages = MIB // PAGE
    lines = [f"map {name} memory {MIB} rw" for name in names] + ["script s"]
    for n in range(COMMANDS // REGIONS - 4):
        lines += [small_access(draws, name, n % pages * PAGE, PAGE) for name in names]
    lines += [f"unmap {name}" for name in names]
    for name in names:
        lines += [f"load {name} 0 1", f"store {name} 0 00", f"unmap {name}"]
    return lines


def over_file(commands):
    return [f"map F file {FILE} {FILE_BYTES} rw", "script s", *commands]


def fill():
    return over_file(f"load F {off} 8" for off in range(0, FILE_BYTES, PAGE))


def store():
    return over_file(f"store F {off} {off.to_bytes(8, 'little').hex()}" for off in range(0, FILE_BYTES, PAGE))


def random_commands():
    draws = Draws(3)
    for _ in range(COMMANDS // 2):
        off = draws.below(16 * MIB - 64)
        if draws.below(10) == 0:
            yield f"store F {off} {bytes([draws.below(256)] * 64).hex()}"
        else:
            yield f"load F {off} 64"


TEXTS = {
    "resident": lambda: small_commands(4 * MIB, 1),
    "evicting": lambda: small_commands(16 * MIB, 2),
    "stores": large_stores,
    "loads": large_loads,
    "flushes": flushes,
    "regions": regions,
}

# The buffer's pages that hold all of a text's; any other text runs with the default.
FRAMES = {"flushes": 4096, "regions": 16384}

OVER_FILES = {
    "fill": fill,
    "store": store,
    "random": lambda: over_file(random_commands()),
}


def write_all(folder, texts):
    os.makedirs(folder, exist_ok=True)
    for name, lines in texts.items():
        with open(os.path.join(folder, name + ".workload"), "w", encoding="ascii") as out:
            out.write("\n".join(lines()) + "\n")


if __name__ == "__main__":
    if len(sys.argv) not in (2, 3) or sys.argv[2:] not in ([], ["files"]):
        sys.exit(__doc__)
    write_all(sys.argv[1], OVER_FILES if sys.argv[2:] else TEXTS)
