"""WebAssembly modules of proved code, for browsers and for Node.

The kit proves a crate and hands the whole program, as LLVM's code, to its own clang; tools/proving.py keeps that code.
Here its target x86-64 is replaced by wasm64, in two lines of its head and in words of the attributes of functions, and
nothing else changes: pointers and `usize` keep 64 bits, and layouts are the same. What it calls is compared with a
list. The kit's clang compiles it as the kit does for wasm64, and its linker makes a module of it and of the C files in
tools/web. The kit's own target wasm64 would do without this, but it refuses to compile code that allocates.
"""
import os
import re
import subprocess
import tempfile

import narrowing
import script
import sdf

FOLDER = os.path.join(script.TOP, "tools", "web")
TARGET = "wasm64-unknown-unknown"
NATIVE = "x86_64-unknown-linux-gnu"
LAYOUT = "e-m:e-p:64:64-p10:8:8-p20:8:8-i64:64-i128:128-n32:64-S128-ni:1:10:20"
NATIVE_LAYOUT = "e-m:e-p270:32:32-p271:32:32-p272:64:64-i64:64-i128:128-f80:128-n8:16:32:64-S128"
NATIVE_WORDS = re.compile(r' "probe-stack"="inline-asm"| "stack-probe-size"="\d+"')
NATIVE_CPU = re.compile(r'"target-cpu"="x86-64(?:-v2)?"')
# the processor that the kit names for wasm64, with vectors of 128 bits, which every browser has had since 2023
CPU = '"target-cpu"="lime1" "target-features"="+simd128"'
BARRIER = 'asm sideeffect "", "~{memory}"()'
DECLARED = re.compile(r"@([\w.]+)\(")
# what the code may call: heap.c, system.c or the compiler answers each
CALLS = set("""__sysv_signal __write __x86_get_cpuid_feature_leaf _exit abort free malloc pthread_attr_destroy
    pthread_attr_init pthread_attr_setguardsize pthread_attr_setstacksize pthread_create pthread_detach pthread_join
    pthread_self rattle_alloc rattle_arg rattle_dealloc rattle_env rattle_env_at rattle_errno rattle_realloc
    rattle_set_errno read sched_yield write""".split())
INTRINSICS = re.compile(
    r"llvm\.(?:trap|mem(?:set|move|cpy)\.[p0-9.i]+|c[tl][lt]z\.i\d+|ctpop\.i\d+|"
    r"[su](?:add|sub|mul)\.(?:with\.overflow|sat)\.[iv0-9]+|bswap\.i\d+|[us]m(?:ax|in)\.[iv0-9]+)")
# what a module may ask of its host, by the C file that is linked with it
IMPORTS = {"system": {("host", name) for name in ("read", "write", "word", "exit")}, "library": set()}
FLAGS = ("--target=" + TARGET, "-mcpu=lime1", "-mllvm", "-expand-div-rem-bits=64", "-mllvm",
         "-expand-fp-convert-bits=64", "-ffunction-sections", "-fdata-sections", "-mllvm", "-trap-unreachable",
         "-mllvm", "-disable-machine-licm", "-mllvm", "-disable-postra-machine-licm", "-mllvm", "-sink-common-insts=false",
         "--no-default-config", "-no-canonical-prefixes", "-fintegrated-cc1", "-fno-crash-diagnostics", "-Werror", "-c")
C_FLAGS = ("--target=" + TARGET, "-mcpu=lime1", "-O2", "-std=c11", "-ffreestanding", "-fno-builtin", "-nostdinc",
           "-ffunction-sections", "-Wall", "-Wextra", "-Werror", "-c")
STACK = 1 << 20


def ran(*words):
    """What a tool of the kit writes; a fault if it fails."""
    done = subprocess.run(words, stdin=subprocess.DEVNULL, capture_output=True, check=False)
    if done.returncode:
        raise sdf.Fault(f"{os.path.basename(words[0])}: {done.stderr.decode(errors='replace')[-sdf.LONGEST:]}")
    return done.stdout


def retargeted(text):
    """The text of LLVM's code with the target wasm64."""
    for sign, old, new in (("datalayout", NATIVE_LAYOUT, LAYOUT), ("triple", NATIVE, TARGET)):
        line = f'target {sign} = "%s"\n'
        if text.count(line % old) != 1:
            raise sdf.Fault(f"the code has no line {(line % old).strip()}")
        text = text.replace(line % old, line % new)
    return "".join(map(line_of, text.splitlines(keepends=True)))


def line_of(line):
    """A line for wasm64; a fault if it calls what nothing answers, or holds assembly."""
    if line.startswith("attributes #"):
        return NATIVE_CPU.sub(CPU, NATIVE_WORDS.sub("", line))
    if line.startswith("declare "):
        name = DECLARED.search(line)[1]
        if name not in CALLS and not INTRINSICS.fullmatch(name):
            raise sdf.Fault(f"the code calls {name}, which nothing answers in a browser")
    elif line.startswith("module asm") or " asm " in line and BARRIER not in line:
        raise sdf.Fault(f"the code has assembly: {line.strip()[:sdf.LONGEST]}")
    return line


def linked(kit, text, part, room):
    """The module with a memory of 64 bits."""
    def at(name):
        return os.path.join(room, name)

    clang, archive = kit.path("toolchain", "bin", "clang"), kit.path("toolchain", "bin", "llvm-ar")
    with open(at("proved.ll"), "w", encoding="utf-8") as file:
        file.write(text)
    ran(clang, *FLAGS, "-x", "ir", at("proved.ll"), "-o", at("proved.o"), "-O3")
    objects = [at("proved.o")]
    for name in ("heap", part):
        ran(clang, *C_FLAGS, os.path.join(FOLDER, name + ".c"), "-o", at(name + ".o"))
        objects.append(at(name + ".o"))
    ran(archive, "rcs", at("all.a"), *objects)
    ran(kit.path("bin", "rattle-link"), "--target", TARGET, "--toolchain", kit.path("toolchain"),
        "--stack", str(STACK), "-o", at("wide.wasm"), at("all.a"))
    with open(at("wide.wasm"), "rb") as file:
        return file.read()


def module(kit, code, part):
    """The module of the code in a file, with the C file `part` between it and its host."""
    clang = kit.path("toolchain", "bin", "clang")
    text = ran(clang, f"--target={NATIVE}", "-S", "-emit-llvm", "-x", "ir", code, "-Xclang", "-disable-llvm-passes",
               "-o", "-").decode()
    with tempfile.TemporaryDirectory() as room:
        wide = linked(kit, retargeted(text), part, room)
    try:
        made = narrowing.narrowed(wide)
        imported = set(narrowing.imported(made))
    except narrowing.Refused as why:
        raise sdf.Fault(f"the module has {why}") from why
    if not imported <= IMPORTS[part]:
        raise sdf.Fault(f"the module asks its host for {sorted(imported - IMPORTS[part])}")
    return made
