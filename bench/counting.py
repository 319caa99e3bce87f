"""What the benchmarks share: what one lacks, the fonts, the program in C that makes the calls of the library, and the instructions of a run."""
import os
import re
import shutil
import subprocess
import sys

TOP = os.path.dirname(os.path.dirname(os.path.abspath(__file__)))
COMPILER = os.environ.get("CC", "cc")


def library():
    """The static library: the one that is named, or the one that is built here."""
    return os.path.abspath(sys.argv[1]) if len(sys.argv) > 1 else os.path.join(TOP, "crates", "capi", "out", "libcapi.a")


def missing_packages(*packages):
    """Those of some Debian packages that are not there, each with what to do."""
    return [f"{p}: install the Debian package {p}" for p in packages if not shutil.which(p)]


def missing(path, *packages):
    """What a benchmark of the library at a path lacks, each with what to do."""
    lacks = missing_packages(*packages)
    if not shutil.which(COMPILER):
        lacks.append("a C compiler: install one, or name it by CC")
    if not os.path.exists(path):
        lacks.append(f"{path}: build it by `rt lib` in crates/capi")
    return lacks


def fonts():
    """The console font, and figlet's own from where its package put it."""
    own = subprocess.run(["figlet", "-I2"], capture_output=True, text=True).stdout.strip()
    return [os.path.join(TOP, "fonts", "console.flf"), os.path.join(own, "standard.flf")]


def built(name, path, folder):
    """The program of a benchmark over the library at a path, not optimized, so that the counted functions stay apart; what they call is the library, which is."""
    program, source = os.path.join(folder, name), os.path.join(TOP, "bench", name + ".c")
    subprocess.run([COMPILER, "-O0", "-I" + os.path.join(TOP, "include"), source, path, "-o", program], check=True)
    return program


def collected(command, *options, **more):
    """The instructions of a run, by callgrind's options of all of it or of one function and all that it calls."""
    run = ["valgrind", "--tool=callgrind", "--callgrind-out-file=/dev/null", *options, *command]
    done = subprocess.run(run, stdout=subprocess.DEVNULL, stderr=subprocess.PIPE, **more)
    return int(re.search(r"Collected : (\d+)", done.stderr.decode()).group(1))
