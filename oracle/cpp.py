"""Programs over C++ S2, where it is installed."""

import os
import shutil
import subprocess

INSTALLED = "-ls2"
HELP = f"what c++ is told of C++ S2 ({INSTALLED}): '-IF/include -LF/lib -Wl,-rpath,F/lib -ls2' takes that of folder F"


def lacking(words):
    """Why no program over C++ S2 can be built with these words for c++; None if one can."""
    if shutil.which("c++") is None:
        return "no c++"
    tried = ["c++", "-x", "c++", "-fsyntax-only", *(word for word in words if word.startswith("-I")), "-"]
    if subprocess.run(tried, input="#include <s2/s2region_coverer.h>\n", text=True, stderr=subprocess.DEVNULL).returncode != 0:
        return "its header s2/s2region_coverer.h is not installed (Debian: libs2-dev)"
    return None


def build(source, made, words):
    """Compiles a source into the program `made`; whether it could."""
    os.makedirs(os.path.dirname(made), exist_ok=True)
    return subprocess.run(["c++", "-O2", "-DNDEBUG", "-o", made, source, *words]).returncode == 0
