#!/usr/bin/env python3
"""Compare the library on x86-64 with the library on another processor, under emulation.

    tests/processors.py [--gate] [PROCESSOR]       aarch64 if PROCESSOR is left out, or riscv64

Builds both archives (processors/build.py) and has tests/processors/calls.c make every call of include/fichtengarn.h on
both: on files of the differential test's makers, whole and damaged, small and of the largest sizes, each call on a stack
as long as the header says. Every answer and every byte of lent memory must be the same, every answer that the header
names must be met, and the worked example must print what it should. The archives must have the header's functions and need
nothing but memcpy, memmove and memset.

The other processor needs Debian's packages for it, and qemu-user. Where they are not there they are installed, if that may
be done (by root, with apt-get); else they are named and the status is 1.

With --gate the archives are those that stand in target/staticlib, since the gate has built them before. And a machine that
cannot have the packages is no fault of the library: then a line says that nothing was compared, and the status is 0.
"""
import concurrent.futures
import itertools
import os
import re
import shutil
import subprocess
import sys

ROOT = os.path.dirname(os.path.dirname(os.path.abspath(__file__)))
FOLDER = os.path.join(ROOT, "target", "processors")
ARCHIVES = os.path.join(ROOT, "target", "staticlib")
HEADER = os.path.join(ROOT, "include", "fichtengarn.h")
EXAMPLE = os.path.join(ROOT, "examples", "c", "worked_example.c")

# The C library of a processor, as Debian names its package.
C_LIBRARIES = {"aarch64": "libc6-dev-arm64-cross", "riscv64": "libc6-dev-riscv64-cross"}

# What the archives may ask of a system.
NEEDED = {"memcpy", "memmove", "memset"}

# What the header says of the stack, and behind it a function, or several.
STACK_OR_NAME = re.compile(r"Stack: (\d+) KB(?:, on Arm (\d+) KB)?|^\w+ (fichtengarn_\w+)\(", re.MULTILINE)

# A repository that does not answer, or another apt-get at work, is not waited for; nor is a step of installing that takes
# longer than so many seconds. What is fetched is fetched before dpkg begins, so that no wait ends in the midst of its work.
IMPATIENT = ["Acquire::Retries=0", "Acquire::http::Timeout=10", "Acquire::https::Timeout=10", "DPkg::Lock::Timeout=10"]
LONGEST_STEP = 120

# A call that does not end on one of the processors is to end the test: so many seconds are many times what it takes.
LONGEST_RUN = 900

# The seed of the files, and how many there are of each small profile.
SEED, COUNT = 1, 50

# The worked example's stack, as in .ci/run.
EXAMPLE_STACK = 180 * 1024


def fail(why):
    sys.exit(f"processors: {why}")


def read(path):
    with open(path, encoding="utf-8") as file:
        return file.read()


def run(*words, **other):
    """Runs a command in target/, since an emulator may leave a core where it ends by a signal."""
    try:
        done = subprocess.run(words, cwd=FOLDER, capture_output=True, text=True, **other)
    except subprocess.TimeoutExpired as late:
        fail(f"no end within {late.timeout} seconds of {' '.join(words)}")
    if done.returncode:
        fail(f"status {done.returncode} of {' '.join(words)}\n{done.stdout[-2000:]}{done.stderr[-2000:]}")
    return done


# ---- what the other processor needs


class Tools:
    """The compiler and the emulator of a processor."""

    def __init__(self, processor):
        self.compiler = f"{processor}-linux-gnu-gcc"
        self.symbols = f"{processor}-linux-gnu-nm"
        self.sizes = f"{processor}-linux-gnu-size"
        self.emulator = f"qemu-{processor}"
        self.packages = ["qemu-user", f"gcc-{processor}-linux-gnu", C_LIBRARIES[processor]]

    def there(self):
        if not all(map(shutil.which, [self.compiler, self.symbols, self.sizes, self.emulator])):
            return False
        told = subprocess.run([self.compiler, "-print-file-name=libc.a"], capture_output=True, text=True)
        return os.path.isabs(told.stdout.strip())

    def install(self):
        """Installs them where that may be done. Whether it was done is for `there` to say, so no status is looked at."""
        if os.geteuid() != 0 or not shutil.which("apt-get"):
            return
        options = [word for option in IMPATIENT for word in ("-o", option)]
        install = ["install", "--yes", "--no-install-recommends"]
        for words in [["update"], [*install, "--download-only", *self.packages], [*install, "--no-download", *self.packages]]:
            try:
                subprocess.run(
                    ["apt-get", *options, *words],
                    stdin=subprocess.DEVNULL,
                    stdout=subprocess.DEVNULL,
                    stderr=subprocess.DEVNULL,
                    env={**os.environ, "DEBIAN_FRONTEND": "noninteractive"},
                    timeout=LONGEST_STEP,
                )
            except subprocess.TimeoutExpired:
                return


# ---- what the header says


def prototypes(header):
    """The functions of the header in order, each with the stack that it has on x86-64 and on the other processor, in bytes."""
    stacks, kilobytes = {}, None
    for here, there, name in STACK_OR_NAME.findall(header):
        if here:
            kilobytes = [int(here), int(there or here)]
        else:
            stacks[name] = [1024 * number for number in kilobytes]
    return stacks


def answers(header):
    """0 and the refusals: the numbers of the first list."""
    return set(map(int, re.findall(r" = (\d+)", header.split("enum {")[1].split("};")[0])))


# ---- the comparison


def compiled(compiler, archive, program, source, *words):
    output = os.path.join(FOLDER, program)
    include = os.path.join(ROOT, "include")
    # static: nothing of a program is looked up while it runs, which would use the stacks of the calls
    options = ["-std=gnu99", "-Wall", "-Wextra", "-Werror", "-O2", "-static", f"-I{include}"]
    run(compiler, *options, *words, "-o", output, source, archive)
    return output


def lines_of(words):
    """What the calls print on one processor: the lines, and by function how much stack they used."""
    done = run(*words, os.path.join(FOLDER, "cases"), timeout=LONGEST_RUN)
    used = dict(line.split() for line in done.stderr.splitlines())
    return done.stdout.splitlines(), {name: int(stack) for name, stack in used.items()}


def compare(here, there, processor):
    for number, (ours, theirs) in enumerate(itertools.zip_longest(here, there)):
        if ours != theirs:
            fail(f"line {number} of the calls is not the same\nx86-64:  {ours}\n{processor}: {theirs}")


def all_met(lines, header):
    """Every function is called and accepts, every answer is given, and every verdict."""
    told = [line.split()[1:] for line in lines]
    accepting = {f"fichtengarn_{words[0]}" for words in told if words[1] == "0"}
    wanted = {
        "functions that accept": (accepting, set(prototypes(header))),
        "answers": ({int(words[1]) for words in told}, answers(header)),
        "verdicts": ({int(words[3]) for words in told if words[:2] == ["judge", "0"]}, {0, 1, 2, 3}),
    }
    for what, (met, all_of_them) in wanted.items():
        if met != all_of_them:
            fail(f"not all {what} are met, or others: {sorted(met ^ all_of_them)}")


def same_calls(processor, tools, header):
    run(os.path.join(ROOT, "tests", "differential", "run"), str(SEED), str(COUNT), os.path.join(FOLDER, "cases"))
    source = os.path.join(ROOT, "tests", "processors", "calls.c")
    stacks = prototypes(header)
    limits = [[f"-DSTACK_{name}={stack[side]}" for name, stack in stacks.items()] for side in (0, 1)]
    here = compiled("cc", os.path.join(ARCHIVES, "libfichtengarn.a"), "calls", source, *limits[0])
    there = compiled(tools.compiler, archive_of(processor), f"calls-{processor}", source, *limits[1])
    with concurrent.futures.ThreadPoolExecutor() as pool:
        (ours, our_stacks), (theirs, their_stacks) = pool.map(lines_of, [[here], [tools.emulator, there]])
    compare(ours, theirs, processor)
    all_met(ours, header)
    print(f"processors: stack used in bytes, of what there is by the header, on x86-64 and on {processor}")
    for name, (our_most, their_most) in stacks.items():
        print(f"processors:     {name} {our_stacks[name]} of {our_most}, {their_stacks[name]} of {their_most}")
    return len(ours)


def archive_of(processor):
    return os.path.join(ARCHIVES, processor, "libfichtengarn.a")


def same_symbols(symbols, archive, header):
    told = [line.split()[-2:] for line in run(symbols, "--extern-only", archive).stdout.splitlines() if len(line.split()) > 1]
    needed = {name for kind, name in told if kind == "U"}
    defined = {name for kind, name in told if kind == "T"}
    if not needed <= NEEDED or defined != set(prototypes(header)):
        fail(f"{archive} defines {sorted(defined)} and needs {sorted(needed)}")


def worked_example(processor, tools):
    program = compiled(tools.compiler, archive_of(processor), f"worked_example-{processor}", EXAMPLE)
    printed = run(tools.emulator, "-s", str(EXAMPLE_STACK), program, os.path.join(ROOT, "samples", "example-a.roles")).stdout
    if printed != read(os.path.join(ROOT, "examples", "worked_example.out")):
        fail(f"the worked example prints something else on {processor}:\n{printed}")


def text_size(sizes, archive):
    """The bytes of code and of constants, as `size` has them."""
    return int(run(sizes, archive).stdout.splitlines()[1].split()[0])


def have_tools(processor, gate):
    """The tools, installed if need be; None where a gate goes on without them."""
    tools = Tools(processor)
    if tools.there():
        return tools
    tools.install()
    packages = ", ".join(tools.packages)
    if tools.there():
        print(f"processors: installed {packages}")
        return tools
    missing = f"{processor} is not compared with x86-64: that needs the packages {packages}"
    if not gate:
        fail(missing)
    print(f"processors: {missing}")
    return None


def main():
    gate = "--gate" in sys.argv[1:]
    named = [word for word in sys.argv[1:] if word != "--gate"] or ["aarch64"]
    if len(named) != 1 or named[0] not in C_LIBRARIES:
        sys.exit(f"usage: tests/processors.py [--gate] [{' | '.join(C_LIBRARIES)}]")
    processor, header = named[0], read(HEADER)
    tools = have_tools(processor, gate)
    if tools is None:
        return
    if not gate:
        built = subprocess.run([os.path.join(ROOT, "processors", "build.py"), "x86_64", processor])
        if built.returncode:
            sys.exit(built.returncode)
    os.makedirs(FOLDER, exist_ok=True)
    archives = [os.path.join(ARCHIVES, "libfichtengarn.a"), archive_of(processor)]
    texts = []
    for archive, symbols, sizes in zip(archives, ["nm", tools.symbols], ["size", tools.sizes]):
        same_symbols(symbols, archive, header)
        texts.append(text_size(sizes, archive))
    print(f"processors: text of {texts[0]:,} bytes on x86-64, {texts[1]:,} on {processor}")
    calls = same_calls(processor, tools, header)
    worked_example(processor, tools)
    print(f"processors: {calls} calls come to the same on x86-64 and {processor}, and the worked example prints what it should")


if __name__ == "__main__":
    main()
