#!/usr/bin/env python3
"""Make the mined rule files that stand in this repository, by a second miner.

    tests/minedfiles.py SECOND-MINER

SECOND-MINER is the command of an independent implementation of the paper 01. Writes samples/NAME.rules for every
samples/NAME.roles, samples/NAME-cut.rules for one that is mined with cuts too, and the copy beside a program of every sample
that it is run on (crates/*/data); bench/judge/mined.xz, the mined rules of the judge's benchmark; and what its program and that
of denials are run on beside the proofs, example A to be judged, and the denials in a log of six records beside it to be
counted, a hundred times (crates/bench_judge/stdin, crates/bench_denials/stdin).
"""
import lzma
import os
import sys
import tempfile

# no files beside this one are left
sys.dont_write_bytecode = True
ROOT = os.path.dirname(os.path.dirname(os.path.abspath(__file__)))
SAMPLES = os.path.join(ROOT, "samples")
sys.path[1:1] = [SAMPLES, os.path.join(ROOT, "bench"), os.path.join(ROOT, "bench", "judge")]
import make
import pairs
from secondminer import told


# Records of a usage log beside example A, the first, third, fourth and last denied.
SIX_RECORDS = bytes.fromhex("00 01 00 00 00 00 01 00 00 00 01 00 01 01 00 00 01 00")


def read(path):
    with open(path, "rb") as file:
        return file.read()


def write(path, contents):
    with open(path, "wb") as out:
        out.write(contents)


# Samples that are mined with cuts too.
CUT = {"three-regions": "2,4"}


def mined(second_miner, role_file, options=""):
    with tempfile.TemporaryDirectory() as folder:
        name = os.path.join(folder, "roles")
        write(name, role_file)
        (said,) = told(second_miner, [f"mine --out-len 1000000 {options} {name} {name}.rules"])
        assert said.startswith("parts "), said
        return read(f"{name}.rules")


def low_first(number):
    """Two bytes."""
    return number.to_bytes(2, "little")


def given_to(program):
    return os.path.join(ROOT, "crates", program, "stdin")


def main():
    if len(sys.argv) != 2:
        sys.exit(__doc__)
    second_miner = sys.argv[1]
    for name in sorted(os.listdir(SAMPLES)):
        start, end = os.path.splitext(os.path.join(SAMPLES, name))
        if end == ".roles":
            write(f"{start}.rules", mined(second_miner, read(f"{start}.roles")))
    for name, cuts in CUT.items():
        start = os.path.join(SAMPLES, name)
        write(f"{start}-cut.rules", mined(second_miner, read(f"{start}.roles"), f"--cuts {cuts}"))
    for sample, copy in make.copies():
        write(copy, read(sample))
    packed = lzma.compress(mined(second_miner, pairs.departments()), preset=9 | lzma.PRESET_EXTREME)
    write(os.path.join(ROOT, "bench", "judge", "mined.xz"), packed)
    rules = mined(second_miner, pairs.SMALL_ROLES)
    write(given_to("bench_judge"), low_first(100) + pairs.given(pairs.SMALL_ROLES, rules))
    lengths = low_first(len(pairs.SMALL_ROLES)) + low_first(len(rules))
    write(given_to("bench_denials"), low_first(100) + lengths + bytes([2]) + pairs.SMALL_ROLES + rules + SIX_RECORDS)


if __name__ == "__main__":
    main()
