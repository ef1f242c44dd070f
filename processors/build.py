#!/usr/bin/env python3
"""Build the static library for C and Rust: target/staticlib/libfichtengarn.a, and target/staticlib/PROCESSOR/libfichtengarn.a.

    processors/build.py [--gate] [PROCESSOR ..]      x86_64 and aarch64 if left out; or riscv64

The crate fichtengarn_c is the library: rattle proves it over the crates below it, and compiles what is proved for x86_64 or
for aarch64. `rt lib` in crates/fichtengarn_c proves the crates below first, and leaves each in its out/; with --gate those
are taken that `rt ci` has proved and left there just now. The archive for x86_64 stands in target/staticlib itself.

rattle has no riscv64. For it the module is kept that rattle hands to the kit's clang for aarch64: rattle is handed the toolchain
as a folder of links, in which clang alone is a script that keeps the module and the words that come with it, and goes on as
the kit's. Then the kit's clang compiles the same module, by the same words, for riscv64. Nothing of the kit is changed or copied.

What is proved of an archive: the source that it is compiled from. What is not, and the script says so:

  - the compiler: rattle's lowering to LLVM, and clang;
  - for riscv64 also that the module, which was lowered for aarch64's layout, means the same there: the layouts as clang names
    them are compared, and both are little-endian with words and pointers of 64 bits. And how structs go by value: what
    include/fichtengarn.h comes to on riscv64 is asked of the kit's clang, and each head of the module has to be as it says. Both
    processors have a pointer to the caller's copy for a large struct, and two registers for one of two words. Nor does
    rattle look through what clang's first passes made of that module, as it does for the other two.
"""
import os
import re
import shlex
import shutil
import subprocess
import sys
import tempfile

ROOT = os.path.dirname(os.path.dirname(os.path.abspath(__file__)))
LIBRARY = "fichtengarn"
CRATE = "fichtengarn_c"
ARCHIVES = os.path.join(ROOT, "target", "staticlib")
PROCESSORS = ["x86_64", "aarch64", "riscv64"]

# What both layouts must say: little-endian, and the alignment of wide words and of the stack. Pointers have 64 bits
# where a layout says nothing else.
LAYOUT = {"e", "i64:64", "i128:128", "S128"}
OTHER_POINTERS = re.compile(r"p:(?!64:64$)")

# The lines of a module that name its target, and the word in which its functions do.
TARGET = re.compile(r'^target \w+ = ".*"$', re.MULTILINE)
PROCESSOR_NAMED = re.compile(r' "target-cpu"="[^"]*"')

# A function of the header.
PROTOTYPE = re.compile(rf"^\w+ ({LIBRARY}_\w+)\(", re.MULTILINE)

# The types that the header takes from the system's headers, in words of the compiler's own.
SYSTEM_HEADERS = {
    "stddef.h": "typedef __SIZE_TYPE__ size_t;\n",
    "stdint.h": "".join(f"typedef __UINT{bits}_TYPE__ uint{bits}_t;\n" for bits in (8, 16, 32, 64)),
}

# A head of a function in a module's text: what it returns, its name and its parameters.
HEAD = re.compile(rf"^(?:define|declare) (?!internal)(?:noundef )?(\S.*?) @({LIBRARY}_\w+)\((.*)\)(?=[^()]*$)", re.MULTILINE)

# What is said of a parameter that changes nothing in where it is passed. That a word of 32 bits is extended is the
# caller's to do; a function that is not told so looks at its 32 bits.
ASIDES = re.compile(
    r" (?:noundef|signext|nonnull|readonly|readnone|writeonly|noalias|nofree|dead_on_return|dead_on_unwind|writable"
    r"|align \d+|captures\([^)]*\)|dereferenceable\(\d+\)|initializes\(\(.*?\)\)|%a\d+)"
)

# Two words returned in two registers, in the words of either side.
TWO_WORDS = ["{ i64, i64 }", "[2 x i64]"]


def fail(why):
    sys.exit(f"processors/build.py: {why}")


def read(path):
    with open(path, encoding="utf-8") as file:
        return file.read()


def write(path, text):
    with open(path, "w", encoding="utf-8") as file:
        file.write(text)


def run(words, **other):
    done = subprocess.run(words, **other)
    if done.returncode:
        sys.exit(done.returncode)


# ---- the crate


def kit():
    """The folder of the kit, at whose top the page stands that is to be read first."""
    page = subprocess.run(["rt", "doc"], check=True, capture_output=True, text=True).stdout.strip()
    return os.path.dirname(page)


def listed():
    """The crates of crates.txt, each with those that it names."""
    lines = [line.split(":") for line in read(os.path.join(ROOT, "crates.txt")).splitlines() if ":" in line.partition("#")[0]]
    return {head.split()[0]: names.split() for head, names in lines}


def below(crate, crates, found):
    for name in crates[crate]:
        if name in crates and name not in found:
            found.append(name)
            below(name, crates, found)
    return found


def built(crate):
    return os.path.join(ROOT, "crates", crate, "out", "rlib")


def prove_below(crates, gate):
    """Has the crates below proved and built, unless a run of rt ci has just left them all. What another command left has a stamp."""
    libraries = [built(name) for name in below(CRATE, crates, [])]
    names = [os.listdir(folder) if os.path.isdir(folder) else [] for folder in libraries]
    if not gate or not all(names) or any("stamp" in found for found in names):
        run(["rt", "lib"], cwd=os.path.join(ROOT, "crates", CRATE), stdout=subprocess.DEVNULL)


def compile_crate(processor, toolchain, archive, crates):
    """Proves the crate over those below, and writes its archive for a processor that rattle has."""
    of_kit = [name for name in ["std", *crates[CRATE]] if name not in crates]
    words = ["--crate-name", CRATE, "src/lib.rt", "-L", f"dependency={kit()}/rlibs"]
    for name in of_kit:
        words += ["--extern", f"{name}={kit()}/rlibs/{name}.rlib"]
    for name in crates[CRATE]:
        words += ["--extern", f"{name}={built(name)}/{name}.rlib"] if name in crates else []
    for name in below(CRATE, crates, []):
        words += ["-L", f"dependency={built(name)}"]
    words += ["--antt-project", f"{kit()}/rattle/logic/antt-project.json", "--logic-built", f"{kit()}/logic_built"]
    words += ["--crate-type", "staticlib", "--target", f"{processor}-unknown-linux-gnu", "--backend", "llvm"]
    words += ["--jobs", "2", "--toolchain", toolchain, "-o", archive]
    done = subprocess.run(
        [f"{kit()}/bin/rattle", "build", *words],
        cwd=os.path.join(ROOT, "crates", CRATE),
        stdout=subprocess.PIPE,
        stderr=subprocess.STDOUT,
        text=True,
    )
    if done.returncode:
        fail(f"not built for {processor}\n{done.stdout}")


# ---- riscv64: the module, and the heads of its functions


def kept_module(folder, crates):
    """The module of the crate for aarch64, and the words that the kit's clang gets for it at last."""
    real, links = os.path.join(kit(), "toolchain"), os.path.join(folder, "toolchain")
    module, words = os.path.join(folder, "module.bc"), os.path.join(folder, "words")
    os.makedirs(os.path.join(links, "bin"))
    for name in [*os.listdir(real), *(os.path.join("bin", name) for name in os.listdir(os.path.join(real, "bin")))]:
        if name not in ("bin", "bin/clang"):
            os.symlink(os.path.join(real, name), os.path.join(links, name))
    clang = os.path.join(links, "bin", "clang")
    write(
        clang,
        f"""#!/bin/sh
printf '%s\\n' "$@" >{shlex.quote(words)}
for word; do case $word in *.bc) cp "$word" {shlex.quote(module)} ;; esac; done
exec {shlex.quote(os.path.join(real, "bin", "clang"))} "$@"
""",
    )
    os.chmod(clang, 0o755)
    compile_crate("aarch64", links, os.path.join(folder, "aarch64.a"), crates)
    if not os.path.exists(module):
        fail("rattle handed no module to the kit's clang")
    return module, read(words).splitlines()


def header_text(clang, processor, names, folder):
    """The module's text of a C program that names these functions of the header."""
    for name, text in SYSTEM_HEADERS.items():
        write(os.path.join(folder, name), text)
    program = os.path.join(folder, "names.c")
    write(program, f'#include "{LIBRARY}.h"\nvoid *const all[] = {{{", ".join(names)}}};\n')
    words = ["-nostdinc", "-I", folder, "-I", os.path.join(ROOT, "include"), "-S", "-emit-llvm", "-o", "-"]
    done = subprocess.run([clang, target(processor), *words, program], capture_output=True, text=True)
    if done.returncode:
        fail(f"the header is refused for {processor}:\n{done.stderr}")
    return done.stdout


def target(processor):
    return f"--target={processor}-unknown-linux-gnu"


def heads(text):
    """By name: what a function returns, and its parameters by their kinds."""
    found = {}
    for returned, name, parameters in HEAD.findall(text):
        kinds = [re.sub(r"sret\(.*\)$", "sret", ASIDES.sub("", it)) for it in re.split(r", (?![^()]*\))", parameters)]
        found[name] = "two words" if returned in TWO_WORDS else returned, kinds
    return found


def for_target(text, theirs):
    """The module's text for the target of another one, whose layout must be the same in what a module rests on."""
    for line in TARGET.findall(text) + TARGET.findall(theirs):
        layout = line.split('"')[1].split("-")
        if "datalayout" in line and (not LAYOUT <= set(layout) or any(map(OTHER_POINTERS.match, layout))):
            fail(f"another sort of layout: {line}")
    lines = iter(TARGET.findall(theirs))
    return PROCESSOR_NAMED.sub("", TARGET.sub(lambda _: next(lines), text))


def words_for(processor, words, module, output):
    """The words of the kit's last call, for another processor, other files, and with all of clang's passes."""
    kept, place = [], 0
    while place < len(words):
        word = words[place]
        place += 1
        if word == "-o" or word == "-Xclang" and words[place] == "-disable-llvm-passes":
            place += 1
        elif word.endswith(".ll"):
            kept += [module, "-o", output]
        elif not word.startswith(("--target=", "-march=", "--sysroot=")):
            kept.append(word)
    return [target(processor), *kept]


def header_names():
    """The functions of the header, in its order."""
    return PROTOTYPE.findall(read(os.path.join(ROOT, "include", f"{LIBRARY}.h")))


def same_functions(archive):
    """The archive for this machine's kind of processor exports the header's functions and nothing else."""
    words = ["nm", "--extern-only", "--defined-only", archive]
    told = subprocess.run(words, stdout=subprocess.PIPE, text=True, check=True).stdout
    exported = {line.split()[-1] for line in told.splitlines() if len(line.split()) == 3}
    if exported != set(header_names()):
        fail(f"functions of the archive or of the header alone: {sorted(exported ^ set(header_names()))}")


def compile_module(processor, folder, archive, crates):
    """Writes the archive for a processor that rattle does not have."""
    tools = os.path.join(kit(), "toolchain", "bin")
    clang = os.path.join(tools, "clang")
    module, words = kept_module(folder, crates)
    told = os.path.join(folder, "module.ll")
    as_text = ["-S", "-emit-llvm", "-Xclang", "-disable-llvm-passes", "-x", "ir", module, "-o", told]
    run([clang, target("aarch64"), *as_text])
    text = read(told)
    named = header_names()
    theirs = header_text(clang, processor, named, folder)
    ours, wanted = heads(text), heads(theirs)
    if set(ours) != set(named):
        fail(f"functions of the module or of the header alone: {sorted(set(ours) ^ set(named))}")
    for name in named:
        if ours[name] != wanted[name]:
            fail(f"{name} is {ours[name]} in the module and {wanted[name]} in the header")
    write(told, for_target(text, theirs))
    output = os.path.join(folder, f"{LIBRARY}.o")
    run([clang, *words_for(processor, words, told, output)])
    run([os.path.join(tools, "llvm-ar"), "rcsD", archive, output])


# ---- the archives


def archive_of(processor):
    inside = [] if processor == "x86_64" else [processor]
    return os.path.join(ARCHIVES, *inside, f"lib{LIBRARY}.a")


def build(processor, crates):
    archive = archive_of(processor)
    os.makedirs(os.path.dirname(archive), exist_ok=True)
    with tempfile.TemporaryDirectory() as folder:
        made = os.path.join(folder, f"lib{LIBRARY}.a")
        if processor == "riscv64":
            compile_module(processor, folder, made, crates)
        else:
            compile_crate(processor, os.path.join(kit(), "toolchain"), made, crates)
        if processor == "x86_64":
            same_functions(made)
        shutil.move(made, archive)
    print(f"{os.path.relpath(archive, ROOT)} is the library for {processor}")
    print("proved: the source that it is compiled from. Not proved: the compiler")
    if processor == "riscv64":
        print("not proved: that the module, lowered for aarch64's layout, means the same here; how structs go by value")


def main():
    gate = "--gate" in sys.argv[1:]
    processors = [word for word in sys.argv[1:] if word != "--gate"] or PROCESSORS[:2]
    if not set(processors) <= set(PROCESSORS):
        sys.exit(f"usage: processors/build.py [--gate] [{' | '.join(PROCESSORS)} ..]")
    crates = listed()
    prove_below(crates, gate)
    for processor in processors:
        build(processor, crates)


if __name__ == "__main__":
    main()
