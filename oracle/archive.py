"""C programs over the archive that bin/archive writes. It is for x86-64: on Arm it needs a compiler for x86-64, and qemu-x86_64."""

import os
import platform
import shutil
import subprocess

ROOT = os.path.dirname(os.path.dirname(os.path.abspath(__file__)))
ARCHIVE = os.path.join(ROOT, "target", "staticlib", "libcapi.a")
NATIVE = platform.machine() == "x86_64"
COMPILER = os.environ.get("CC") or ("cc" if NATIVE else "x86_64-linux-gnu-gcc")


def emulator():
    """The words before a program for x86-64."""
    return [] if NATIVE else [shutil.which("qemu-x86_64")]


def lacking():
    """Why no program can be built over the archive; None if one can."""
    if not os.path.isfile(ARCHIVE):
        return "no target/staticlib/libcapi.a; bin/archive makes it"
    if shutil.which(COMPILER) is None:
        return f"no {COMPILER}"
    return "no qemu-x86_64" if not NATIVE and shutil.which("qemu-x86_64") is None else None


def build(source, made):
    """Compiles a source over the archive into the program `made` and gives the command that runs it; None where it doesn't build."""
    os.makedirs(os.path.dirname(made), exist_ok=True)
    words = ["-std=c99", "-O2", "-Wall", "-Wextra", *([] if NATIVE else ["-static"]), "-I", os.path.join(ROOT, "include")]
    done = subprocess.run([COMPILER, *words, "-o", made, source, ARCHIVE])
    return [*emulator(), made] if done.returncode == 0 else None
