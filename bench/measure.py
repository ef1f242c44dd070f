"""Measuring a proved program beside the same program in plain Rust and beside a second miner.

All three read what they are to do from standard input: two bytes, low byte first, that say how
many times, and what to do it with. They must print the same.
"""
import os
import re
import resource
import shutil
import subprocess
import sys
import tempfile

CRATES = os.path.join(os.path.dirname(os.path.dirname(os.path.abspath(__file__))), "crates")

# What the program load is told to make a role file of the greatest length, 65,535 bytes.
LONGEST = "37 64 62 16 32"


def built(program):
    """The program of this repository that `rt ci`, or `rt run` in its crate's folder, has built."""
    return os.path.join(CRATES, program, "out", program)


def written(name, program, *words, given=b""):
    """The file of this name that a program of this repository writes in its working directory."""
    command = [built(program), *words]
    with tempfile.TemporaryDirectory() as folder:
        subprocess.run(command, cwd=folder, input=given, stdout=subprocess.DEVNULL, check=True)
        with open(os.path.join(folder, name), "rb") as file:
            return file.read()


def load(words):
    """The role file that the program load makes from a seed and four sizes: anyone can make it again."""
    return written("roles.out", "load", *words.split())


def mined(role_file):
    """The rule file that the program mine makes of a role file."""
    return written("rules.out", "mine", given=role_file)


def random_numbers(seed):
    """Numbers below a limit, the same on every machine: a linear congruential generator."""
    state = seed

    def below(limit):
        nonlocal state
        state = (state * 6364136223846793005 + 1442695040888963407) % 2**64
        return (state >> 33) % limit

    return below


def source_of(turns, given):
    """What a program is to read, as a file that is open at its start."""
    source = tempfile.TemporaryFile()
    source.write(turns.to_bytes(2, "little") + given)
    source.seek(0)
    return source


def run(program, turns, given):
    """What the program printed, and the seconds of the processor that it took."""
    with source_of(turns, given) as source:
        before = resource.getrusage(resource.RUSAGE_CHILDREN).ru_utime
        done = subprocess.run([program], stdin=source, stdout=subprocess.PIPE, check=True)
        return done.stdout, resource.getrusage(resource.RUSAGE_CHILDREN).ru_utime - before


def instructions(program, given):
    """How many instructions a turn takes: eleven turns less one, so that what starting takes falls out."""

    def counted(turns):
        with source_of(turns, given) as source:
            count = ["valgrind", "--tool=callgrind", "--callgrind-out-file=/dev/null", program]
            done = subprocess.run(count, stdin=source, capture_output=True, text=True, check=True)
            return int(re.search(r"Collected : (\d+)", done.stderr).group(1))

    return (counted(11) - counted(1)) // 10


def compile_to(program, *words):
    subprocess.run(["rustc", "--edition", "2021", "-C", "opt-level=3", "-o", program, *words], check=True)
    return program


def compiled(second_miner, sources, folder):
    """The programs of plain.rs and second.rs among the sources, the latter with the second miner's library."""
    plain = compile_to(os.path.join(folder, "plain"), os.path.join(sources, "plain.rs"))
    source = os.path.join(second_miner, "src", "lib.rs")
    library = os.path.join(folder, "libsecond_miner.rlib")
    compile_to(library, "--crate-type", "rlib", "--crate-name", "second_miner", source)
    extern = f"second_miner={library}"
    second = compile_to(os.path.join(folder, "second"), "--extern", extern, os.path.join(sources, "second.rs"))
    return plain, second


def enough_turns(program, given):
    """As many turns as fill a fifth of a second or more, and the seconds that they took."""
    turns, took = 1, run(program, 1, given)[1]
    while took < 0.2 and turns < 60000:
        turns = min(4 * turns, 60000)
        took = run(program, turns, given)[1]
    return turns, took


def measured(name, given, rounds, programs, compared=1):
    """The seconds that one turn takes each of the programs, which must print the same after the turns compared."""
    printed = {run(program, compared, given)[0] for program in programs}
    assert len(printed) == 1, f"{name}: the programs have not answered the same"
    turns, fastest = zip(*(enough_turns(program, given) for program in programs))
    fastest, idle = list(fastest), [float("inf")] * len(programs)
    # All in turn, so that other work on the machine meets all alike.
    for _ in range(rounds):
        for i, program in enumerate(programs):
            if fastest[i] < 1:
                fastest[i] = min(fastest[i], run(program, turns[i], given)[1])
            idle[i] = min(idle[i], run(program, 0, given)[1])
    return [(took - nothing) / count for took, nothing, count in zip(fastest, idle, turns)]


# A unit of time: its name, how many make a second, and how many digits behind the point are shown.
MILLISECONDS = "ms", 1e3, 3
MICROSECONDS = "microseconds", 1e6, 2


def beside_plain(proved, plain, unit):
    name, in_second, digits = unit
    ours, by_hand = (f"{seconds * in_second:.{digits}f} {name}" for seconds in [proved, plain])
    return f"proved {ours}, plain {by_hand} (RATIO proved/plain {proved / plain:.2f})"


def beside_both(proved, plain, second, unit):
    name, in_second, _ = unit
    digits = 0 if second >= 10 * proved else 1
    theirs = f"second {second * in_second:.1f} {name} (RATIO second/proved {second / proved:.{digits}f})"
    return f"{beside_plain(proved, plain, unit)}, {theirs}"


def measure_inputs(inputs, compared):
    """What measures all three programs on each input, which is its name and what is given."""

    def measure_all(programs, rounds):
        for name, given in inputs:
            print(f"{name}: {beside_both(*measured(name, given, rounds, programs, compared), MICROSECONDS)}")
            if shutil.which("valgrind"):
                ours, by_hand = (instructions(program, given) for program in programs[:2])
                print(f"    instructions: proved {ours}, plain {by_hand}, ratio {ours / by_hand:.2f}")

    return measure_all


def main(usage, sources, proved, measure_all):
    """Have the three programs, proved, plain and second, measured in as many rounds as the command line says."""
    if len(sys.argv) not in [2, 3] or not os.path.exists(proved):
        sys.exit(usage)
    rounds = int(sys.argv[2]) if len(sys.argv) == 3 else 5
    with tempfile.TemporaryDirectory() as folder:
        measure_all([proved, *compiled(sys.argv[1], sources, folder)], rounds)
