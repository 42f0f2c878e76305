"""BSDL files as liburjtag reads them, which is called through ctypes with UrJTAG's own packages."""
import os, re, subprocess, sys

from chips import TOP, text_of

# Reads the file in a process of its own, as a fault of the library would end it.
URJTAG = """
import ctypes, sys
library = ctypes.CDLL("liburjtag.so.0")
library.urj_tap_chain_alloc.restype = ctypes.c_void_p
chain = ctypes.c_void_p(library.urj_tap_chain_alloc())
library.urj_bsdl_set_path(chain, sys.argv[1].encode())
sys.exit(library.urj_bsdl_read_file(chain, sys.argv[2].encode(), 0x1F, None) < 0)
"""
PACKAGES = "/usr/share/urjtag/bsdl"
# Words of the files that are no reserved words of VHDL.
WORDS = ("bit", "bit_vector", "string", "true", "std_1149_1_2001")


def hiding_names(text):
    """The names of a file's entity, pin map and ports that BSDL reserves, as the manual lists them, or that hide a word of
    the file."""
    sys.path.append(os.path.join(TOP, "scripts"))
    from bsdl_names import is_annex_word

    names = re.findall(r"^(?:entity (\w+) is|  constant (\w+) :.*|    (\w+) : (?:in|out|inout|linkage) .*)$", text, re.M)
    return [name for name in map("".join, names) if is_annex_word(name) or name.lower() in WORDS]


def by_urjtag(bsdl, code):
    """What liburjtag says of the file; the trial ends where it refuses it for another reason than a name."""
    read = subprocess.run([sys.executable, "-c", URJTAG, PACKAGES, bsdl], stdin=subprocess.DEVNULL, capture_output=True, text=True)
    said = read.stdout + read.stderr
    found = re.search(r"Got IDCODE: ([01]+)", said)
    names = hiding_names(text_of(bsdl))
    if read.returncode != 0 and names:
        return f"liburjtag REFUSES it, with the names {', '.join(names)}, which BSDL reserves or which hide words of the file"
    if read.returncode != 0 or "passed BSDL stage correctly" not in said or (found and found[1]) != (code and re.sub(" ", "", code)):
        sys.exit(f"liburjtag on {bsdl}: status {read.returncode}\n{said}")
    return "liburjtag reads it" + (f" and finds its code {int(found[1], 2):08x}" if found else "")
