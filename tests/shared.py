"""What the scripts of this folder share: where things are, files, 01's example font and its like, and the files that figlet installs."""
import os
import subprocess

TOP = os.path.dirname(os.path.dirname(os.path.abspath(__file__)))
BANNER = os.path.join(TOP, "crates", "banner", "out", "banner")
LIBRARY = os.path.join(TOP, "crates", "capi", "out", "libcapi.a")
REQUIRED = [*range(32, 127), 196, 214, 220, 228, 246, 252, 223]  # the codes that every font has, in their order


def put(path, data):
    with open(path, "wb") as f:
        f.write(data)
    return path


def taken(path):
    with open(path, "rb") as f:
        return f.read()


def made(parameters, drawn):
    """A font of one row, made here: the example font of 01 with other parameters, or other drawings of its characters."""
    rows = [b"$@@"] + [drawn(bytes((c,))) + (b"##" if c == 64 else b"@@") for c in range(33, 127)] + [b"@@"] * 7
    return b"flf2a$ 1 1 9 " + parameters + b"\n" + b"\n".join(rows) + b"\n"


def itself(c):
    return c


FONT = made(b"-1 0", itself).replace(b" 9 -1", b" 4 -1")  # the example font of 01, 419 bytes
assert len(FONT) == 419


def figlet_files():
    """The fonts and the control files that figlet installs, by their names."""
    own = subprocess.run(["figlet", "-I2"], capture_output=True, text=True).stdout.strip()
    return {name: taken(os.path.join(own, name)) for name in sorted(os.listdir(own)) if name.endswith((".flf", ".flc"))}
