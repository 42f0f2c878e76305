"""BSDL files as GHDL reads them, as the VHDL that they are, behind a package with the standard's attributes."""
import os, re, subprocess, sys

from chips import HERE, keep

ATTRIBUTES = os.path.join(HERE, "std_1149_1_2001.vhd")


def apart(text):
    """The file with other names for its ports and its entity, which are then none of the words that it uses."""
    text = re.sub(r"^    (\w+) : (in|out|inout|linkage) ", r"    \1_0 : \2 ", text, flags=re.M)
    text = re.sub(r" of (\w+) : (signal|entity) ", r" of \1_0 : \2 ", text)
    return re.sub(r"^(entity|end) (\w+)", r"\1 \2_0", text, flags=re.M)


def analysed(room, text):
    """Whether GHDL analyses the file."""
    unit = keep(os.path.join(room, "device.vhd"), text.replace("use STD_1149_1_2001.all", "use work.STD_1149_1_2001.all"))
    return subprocess.run(["ghdl", "-a", "--std=93", "-frelaxed", ATTRIBUTES, unit], cwd=room, capture_output=True).returncode == 0


def by_ghdl(room, text):
    """What GHDL says of the file; the trial ends where it refuses it for another reason than a name."""
    if analysed(room, text):
        return "GHDL reads it"
    other = apart(text)
    words = set(re.sub(r'"[^"]*"', "", other).lower().split())
    words = {word.strip("();:") for word in words}
    names = re.findall(r"^(?:entity (\w+) is|    (\w+) : (?:in|out|inout|linkage) .*)$", text, re.M)
    names = [name for name in map("".join, names) if name.lower() in words]
    if not names or not analysed(room, other):
        sys.exit(f"GHDL refuses\n{text}")
    return f"GHDL READS IT ONLY with other names for {', '.join(names)}, which hide words of the file"
