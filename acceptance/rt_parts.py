"""What ./build and build_for use of the kit's command rt: by its parts a crate is proved as the gate proves it, from nothing."""
import functools
import importlib.machinery
import importlib.util
import os
import shutil

# What a machine has that is of this level (x86-64 psABI, 3.1.1), as /proc/cpuinfo names it.
FEATURES = {
    "x86-64-v2": {"cx16", "lahf_lm", "popcnt", "sse4_1", "sse4_2", "ssse3"},
    "x86-64-v3": {"abm", "avx", "avx2", "bmi1", "bmi2", "f16c", "fma", "movbe"},
}


def has(cpu):
    """Returns whether this machine has what the processor has."""
    with open("/proc/cpuinfo", encoding="utf-8") as lines:
        flags = next((set(it.split()) for it in lines if it.startswith("flags")), set())
    return FEATURES[cpu] <= flags


def toolchain():
    """Returns the module of the command rt."""
    loader = importlib.machinery.SourceFileLoader("rt", os.path.realpath(shutil.which("rt")))
    made = importlib.util.module_from_spec(importlib.util.spec_from_loader("rt", loader))
    loader.exec_module(made)
    return made


def lacking(rt, parts):
    """Returns which of some parts an rt hasn't."""

    def lacks(path):
        found = rt
        for name in path.split("."):
            found = getattr(found, name, None)
        return found is None

    return [it for it in parts if lacks(it)]


def crates(rt):
    """Returns the crates of the repository in whose top folder this runs, as rt ci sees them, by name."""
    rt.rtlib.Crate, rt.rtlib.stop = rt.Crate, rt.stop
    rt.Crate.cuts_libraries = True
    rt.Crate.allowed = rt.handles_of(os.getcwd())
    # rt asks this of a crate once for each path that leads down to it
    rt.Crate.below = functools.cache(rt.Crate.below)
    rt.rtlib.guarded()
    return {it.name: it for it in rt.rtlib.crates_below(os.getcwd())}
