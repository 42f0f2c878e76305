"""What the trials of the scripts share: runs of a script, what it refuses, and chips to try it on."""
import os, shutil, subprocess, sys

from chips import HERE, TOP, inserted, keep, run, text_of

SCRIPTS = os.path.join(TOP, "scripts")
DATA = os.path.join(HERE, "data")
# The counter, a chip with inouts and HIGHZ, and the other small ones, the last with USERCODE.
SMALL = [(os.path.join(TOP, "examples"), "counter8")] + [(DATA, name) for name in ("both_ways", "flops", "gates", "short", "three_states", "two_codes")]
# A device of as many rows as there may be.
MOST_ROWS = 4091


def script(name, *words):
    """What a script prints; the trial ends where it refuses."""
    return run([sys.executable, os.path.join(SCRIPTS, name), *words])


def refusals(name, cases):
    """Runs of a script on wrong input, by what is wrong: each must say so in a line, with a status other than 0, and no
    traceback."""
    for what, words in cases.items():
        done = subprocess.run([sys.executable, os.path.join(SCRIPTS, name), *words], stdin=subprocess.DEVNULL, capture_output=True, text=True)
        said = done.stderr.strip().split("\n")
        if done.returncode == 0 or "Traceback" in done.stderr or not said[-1].startswith(f"{name}: "):
            sys.exit(f"{name} on {what}: status {done.returncode}\n{done.stderr}")
    shown = run([sys.executable, os.path.join(SCRIPTS, name), "--help"])
    if "usage:" not in shown:
        sys.exit(f"{name} --help shows no usage")
    return f"{len(cases)} wrong inputs are refused"


def clone_of(program, folder):
    """A folder in which the script `lavkhind` runs the program as the proved one, but for what else it has."""
    os.makedirs(os.path.join(folder, "crates/lavkhind/out"))
    shutil.copy(os.path.join(TOP, "lavkhind"), folder)
    os.symlink(program, os.path.join(folder, "crates/lavkhind/out/lavkhind"))
    is_proved(folder, True)
    return folder


def is_proved(folder, it_is):
    """Whether the script takes the program in such a folder for the proved one."""
    os.chmod(keep(os.path.join(folder, "prove"), f"#!/bin/sh\nexit {0 if it_is else 1}\n"), 0o755)


def small_chips(program, room):
    """The name, the netlist and the BSDL file of each small chip."""
    for folder, name in SMALL:
        yield (name, *inserted(program, folder, name, room))


def with_own_register(room):
    """The BSDL file of the counter with a register of the design's own, as `statusbsdl` takes it."""
    text = text_of(os.path.join(TOP, "examples/counter8.bsd"))
    for old, new in (("CLAMP (0100)", "RDOWN (0101)"), ("DEVICE_ID (IDCODE)", "OWN[3] (RDOWN)")):
        text = text.replace(f'"{old}";', f'"{old}," &\n    "{new}";')
    return keep(os.path.join(room, "own.bsd"), text)


def demo(program, room, number):
    paths = [os.path.join(room, f"demo{number}{end}") for end in (".v", ".bsd")]
    run([program, "demo", str(number), *paths])
    return paths


def most_rows(room):
    """The BSDL file of a device with as many rows as there may be: inputs and two-state outputs."""
    inputs = MOST_ROWS // 2
    outputs = MOST_ROWS - inputs
    yes = "signal is true;"
    lines = ["entity most is", '  generic (PHYSICAL_PIN_MAP : string := "GRID");', "  port ("]
    lines += [f"    a : in bit_vector({inputs - 1} downto 0);", f"    y : out bit_vector({outputs - 1} downto 0);"]
    lines += [f"    {name} : {mode} bit;" for name, mode in (("TCK", "in"), ("TMS", "in"), ("TDI", "in"), ("TDO", "out"))]
    lines += ["    TRST : in bit", "  );", "  use STD_1149_1_2001.all;"]
    lines += ['  attribute COMPONENT_CONFORMANCE of most : entity is "STD_1149_1_2001";']
    lines += ["  attribute PIN_MAP of most : entity is PHYSICAL_PIN_MAP;", "  constant GRID : PIN_MAP_STRING :="]
    pins = [("a", "A", inputs), ("y", "Y", outputs)]
    lines += [f'    "{port}:({",".join(f"{letter}{number}" for number in range(count))})," &' for port, letter, count in pins]
    lines += ['    "TCK:T1," &', '    "TMS:T2," &', '    "TDI:T3," &', '    "TDO:T4," &', '    "TRST:T5";']
    lines += [f"  attribute TAP_SCAN_{name} of {port} : {yes}" for name, port in (("IN", "TDI"), ("MODE", "TMS"), ("OUT", "TDO"), ("RESET", "TRST"))]
    lines += ["  attribute TAP_SCAN_CLOCK of TCK : signal is (10.0e6, BOTH);", "  attribute INSTRUCTION_LENGTH of most : entity is 4;"]
    opcodes = ("BYPASS (1111)", "EXTEST (0000)", "SAMPLE (0001)", "PRELOAD (0001)", "IDCODE (0010)", "CLAMP (0100)")
    lines += ["  attribute INSTRUCTION_OPCODE of most : entity is", "    " + ' &\n    '.join(f'"{it},"' for it in opcodes)[:-2] + '";']
    lines += ['  attribute INSTRUCTION_CAPTURE of most : entity is "0001";']
    lines += ["  attribute IDCODE_REGISTER of most : entity is", '    "0001" & "0000000000000001" & "00000000001" & "1";']
    lines += ["  attribute REGISTER_ACCESS of most : entity is", '    "BOUNDARY (EXTEST, SAMPLE, PRELOAD)," &']
    lines += ['    "BYPASS (BYPASS, CLAMP)," &', '    "DEVICE_ID (IDCODE)";', f"  attribute BOUNDARY_LENGTH of most : entity is {MOST_ROWS};"]
    rows = [f"{number} (BC_1, a({number}), input, X)" for number in range(inputs)]
    rows += [f"{inputs + number} (BC_{1 + number % 2}, y({number}), output2, X)" for number in range(outputs)]
    lines += ["  attribute BOUNDARY_REGISTER of most : entity is", "    " + ' &\n    '.join(f'"{row},"' for row in rows)[:-2] + '";', "end most;"]
    return keep(os.path.join(room, "most.bsd"), "\n".join(lines) + "\n")


def two_hundred(program, room):
    """The netlist and the BSDL file of a chip in a package of 200 pins, with inouts, HIGHZ and supplies."""
    netlist, plan, written, bsdl = (os.path.join(room, f"pins200{end}") for end in (".v", ".plan", ".out.v", ".bsd"))
    lines = ["module pins200 (input clk, input rn, input [63:0] a, output [63:0] y, inout [47:0] p);", "  wire [63:0] r;"]
    for number in range(64):
        lines.append(f"  DFFR r{number} (.D(a[{number}]), .CK(clk), .RN(rn), .Q(r[{number}]));")
        lines.append(f"  buf (y[{number}], r[{number}]);")
    lines += [f"  bufif1 (p[{number}], r[{number}], a[{number // 8}]);" for number in range(48)]
    keep(netlist, "\n".join([*lines, "endmodule"]) + "\n")
    pins = [("clk", "BC_4"), ("rn", "BC_4"), *((f"a[{number}]", "BC_1") for number in range(64))]
    pins += [*((f"y[{number}]", "BC_2") for number in range(64)), *((f"p[{number}]", "BC_7") for number in range(48))]
    lines = ["plan 1", "entity pins200", "package QFP200", "prefix bs_"]
    lines += [f"{name} {name.upper()} {pin}" for name, pin in (("tck", 1), ("tms", 2), ("tdi", 3), ("tdo", 200), ("trst", 199))]
    lines += ["clock 25", "length 5", "capture 00001"]
    opcodes = {"BYPASS": 31, "EXTEST": 0, "SAMPLE": 1, "PRELOAD": 1, "IDCODE": 2, "HIGHZ": 3, "CLAMP": 4}
    lines += [f"opcode {name} {code:05b}" for name, code in opcodes.items()]
    lines += ["idcode 0011 1100101011111110 00010100111 1", "control BC_1"]
    lines += [f"pin {pin} {number} {cell}" for number, (pin, cell) in enumerate(pins, 4)]
    lines += [f"linkage V{number} {number}" for number in range(4 + len(pins), 199)]
    keep(plan, "\n".join(lines) + "\n")
    run([program, "insert", netlist, plan, written, bsdl])
    return written, bsdl
