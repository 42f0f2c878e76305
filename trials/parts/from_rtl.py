"""Netlists of scripts/from_rtl, and of yosys' own recipe, do what the RTL does, up to the chip that `insert` makes; and
what is refused is told by the RTL's names."""
import os, re, shutil, subprocess, sys

from chips import CELLS, TOP, keep, run, text_of
from script_trials import SCRIPTS, refusals, script

NEEDS = ("yosys", "iverilog", "vvp")
EXAMPLE = os.path.join(TOP, "examples/synthesis")
PORTS = ["input clk", "input rn", "input [8:1] level", "input [4:7] rate", "input [0:0] run", "input \\release ", "input [1:0] what", "inout wake"]
PORTS += ["inout [1:0] pad", "output pulse_out", "output [8:1] count", "output [0:3] seen", "output tri_bit", "output [3:0] word"]
# RTL that is refused, and what is said of it.
REFUSED = {
    "module t (input a, b, output reg q); always @* if (a) q = b; endmodule": "q: a latch",
    "module t (input c, s, r, d, output reg q); always @(posedge c, posedge s, posedge r) if (r) q <= 0; else if (s) q <= 1; else q <= d; endmodule": "q: both cleared and preset",
    "module t (input c, d, output reg q); initial q = 0; always @(posedge c) q <= d; endmodule": "q: a value at power-up",
    "module t (input a, b, output y); assign y = a; assign y = b & a; endmodule": "has several drivers",
    "module t (input a, output y); wire round; assign round = ~(round & a); assign y = round; endmodule": "a circle without a flip-flop",
    "module t (input c, d, output reg q); reg half; always @(posedge c) half <= ~half; always @(posedge half) q <= d; endmodule": "DerivedClock q_reg half",
    "module t (input a, b, output y, z); assign y = a ? b : 1'bz; assign z = y & b; endmodule": "TristateRead y",
    "module t (inout p, q); assign p = q; endmodule": "the inouts p and q are one net",
    "module t (input a, output y); lacking u1 (.a(a), .y(y)); endmodule": "lacking",
    "module t (input a, output y); assign y = ; endmodule": "syntax error",
    "module t (input a, output y); LATX1 l (.D(a), .G(a), .Q(y)); endmodule": "y: a latch",
    "module t (input a, output y": "syntax error",
}
# RTL that is taken, and what its netlist has.
TAKEN = {
    "module t (input a, b, inout p, q, output [1:0] z, k, x); assign z = {1'bz, a}; assign p = a & b; assign k = 1; assign x = 1'bx; endmodule": (
        " (q, 1'b0, 1'b0);", " (p, n0, 1'b1);", " (z[1], 1'b0, 1'b0);", " (z[0], a);", " (k[0], 1'b1);", " (x[1], 1'b0);"),
    "module t (input a, b, c, output y, s, co, p); INVX1 \\by-hand (.A(a), .Y(y)); FAX1 f (.A(a), .B(b), .C(c), .S(s), .CO(co)); TBUFX1 o (.A(a), .EN(b), .Y(p)); endmodule": (
        "INVX1 \\by-hand (.A(a), .Y(y));", "(p, a, b);"),
    "module u (input c, d, output reg q); always @(posedge c) q <= d; endmodule module t (input c, d, output q); wire \\a-b ; u u1 (c, d, \\a-b ); u u2 (c, \\a-b , q); endmodule": (
        "DFFX1 \\a-b_reg (.D(d), .CK(c), .Q(\\a-b ));", "DFFX1 q_reg (.D(\\a-b ), .CK(c), .Q(q));"),
}

# A netlist of a library's cells: what is told of each instance that isn't in what is written, and what is there.
INSTANCES = """module low (input c, d, se, si, output q); SDFFX1 u_ff (.D(d), .SE(se), .SI(si), .CK(c), .Q(q)); FILL1 u_fill (); endmodule
module t (input c, d, se, si, a, b, en, inout VDD, inout idle, output q, y, s, co, z, output \\1st );
  low u_low (.c(c), .d(d), .se(se), .si(si), .q(q));
  FILL1 u_fill ();
  ANTENNA1 u_antenna (.A(a));
  FAX1 u_add (.A(a), .B(b), .C(d), .S(s), .CO(co));
  TBUFX1 u_open (.A(a), .EN(en), .Y(z));
  NAND2X1 u_spare (.A(1'b0), .B(1'b0), .Y());
  AND2X1 u_and (.A(a), .B(b), .Y(y));
  wire \\2nd , \\$3 ;
  INVX1 \\4th (.A(a), .Y(\\2nd ));
  INVX1 \\u5/x (.A(\\2nd ), .Y(\\$3 ));
  INVX1 \\\\6 (.A(\\$3 ), .Y(\\1st ));
endmodule
"""
TOLD = """left out: u_antenna of ANTENNA1 (it has no output)
left out: u_fill of FILL1 (it has no output)
left out: u_low.u_fill of FILL1 (it has no output)
made anew: u_add of FAX1, as gates
made anew: u_low.u_ff of SDFFX1, as the flip-flop q_reg, and gates
made anew: u_open of TBUFX1, as gates
VDD: a supply, by its name, and it has a boundary cell: leave it out of the module, and name its pin in a line `linkage` of the plan
idle: an inout that nothing drives, so it has a bufif1 that is never on
"""
STAY = ("NAND2X1 u_spare (.A(1'b0), .B(1'b0));", "AND2X1 u_and (.A(a), .B(b), .Y(y));", "INVX1 \\4th (.A(a), .Y(\\2nd ));", "INVX1 \\u5/x (.A(\\2nd ), .Y(\\$3 ));", "INVX1 \\\\6 (.A(\\$3 ), .Y(\\1st ));", "  output \\1st \n")
# Cells with buses and a bundle, which yosys refuses to read.
BUSES = """  type (four) { base_type : array; data_type : bit; bit_width : 4; bit_from : 3; bit_to : 0; }
  cell (RAM16) { bus (A) { bus_type : four; direction : input; } bus (Q) { bus_type : four; direction : output; } pin (CK) { direction : input; } }
  cell (PAIR) { bundle (D) { members (D1, D2); pin (D1) { direction : input; } pin (D2) { direction : input; } } pin (Y) { direction : output; function : "D1 D2"; } }
  cell (ANTENNA1) { pin (A) { direction : input; } }
"""


def log_of(room, *words):
    """What pulse_play.v prints of a chip."""
    simulation = os.path.join(room, "play.vvp")
    run(["iverilog", "-g2001", "-s", "pulse_play", "-o", simulation, os.path.join(EXAMPLE, "pulse_play.v"), *words])
    return run(["vvp", "-n", simulation])


def recipe(room):
    """The netlist of yosys' script, in a folder of its own."""
    folder = os.path.join(room, "recipe")
    shutil.copytree(EXAMPLE, folder)
    run(["yosys", "-q", "-s", "steps.ys"], cwd=folder)
    return keep(os.path.join(folder, "pulse.net.v"), text_of(os.path.join(folder, "mapped.v")).replace("\\bufif1 ", "bufif1"))


def example(program, room):
    """The files of the example, and what is made anew from its RTL: all give the same log."""
    pulse, small, cells, net, plan, chip, bsdl = (os.path.join(EXAMPLE, name) for name in ("pulse.v", "small.lib", "small.cells", "pulse.net.v", "pulse.plan", "pulse.chip.v", "pulse.bsd"))
    made = [os.path.join(room, name) for name in ("chip.v", "chip.bsd", "chip.events", "models.v")]
    run([program, "insert", net, plan, *made[:2], cells])
    if text_of(made[0]) != text_of(chip) or text_of(made[1]) != text_of(bsdl):
        sys.exit("`insert` doesn't write what the example has")
    run([program, "vectors", bsdl, made[2]])
    script("bench", bsdl, made[2], made[3], cells)
    wanted = log_of(room, pulse)
    mapped, gates = os.path.join(room, "mapped.v"), os.path.join(room, "gates.v")
    script("from_rtl", "pulse", pulse, "--liberty", small, "--out", mapped, "--program", program)
    script("from_rtl", "pulse", pulse, "--out", gates, "--program", program)
    if [line.strip(" ,") + " " * line.endswith("\\release ,") for line in text_of(mapped).split(");")[0].split("\n")[1:-1]] != PORTS:
        sys.exit(f"the ports are {text_of(mapped).split(');')[0]}")
    chips = {"the example's netlist": [net], "one made anew": [mapped], "one of gates": [gates], "yosys' recipe": [recipe(room)], "the chip": [chip, "-DCHIP"]}
    for name, words in chips.items():
        if log_of(room, *words, made[3], CELLS) != wanted:
            sys.exit(f"{name} doesn't play as the RTL")
    return f"pulse: {wanted.count(chr(10))} lines of the RTL's log are those of {', '.join(chips)}"


def synthesised(program, room, rtl, *more):
    """The status and standard error of a run, and the netlist."""
    path, out = keep(os.path.join(room, "t.v"), rtl + "\n"), os.path.join(room, "t.net.v")
    words = [sys.executable, os.path.join(SCRIPTS, "from_rtl"), "t", path, "--out", out, "--program", program, *more]
    done = subprocess.run(words, stdin=subprocess.DEVNULL, capture_output=True, text=True)
    return done.returncode, done.stderr, text_of(out) if os.path.exists(out) else ""


def small_designs(program, room):
    library = ["--liberty", os.path.join(EXAMPLE, "small.lib")]
    for rtl, wanted in TAKEN.items():
        status, said, netlist = synthesised(program, room, rtl, *library)
        lacking = [line for line in wanted if line not in netlist]
        if status or lacking:
            sys.exit(f"{rtl}: status {status}, {said}{netlist}lacks {lacking}")
    for rtl, wanted in REFUSED.items():
        status, said, _ = synthesised(program, room, rtl, *library)
        if status != 1 or wanted not in said or "Traceback" in said:
            sys.exit(f"{rtl}: status {status}, {said}for {wanted}")
    status, said, netlist = synthesised(program, room, "module t (input in, output out); assign out = ~in; endmodule", "--port", "in=a", "--port", "out=y")
    if status or not re.search(r"not g\d+ \(y, a\);", netlist):
        sys.exit(f"ports with other names: {said}{netlist}")
    for name, why in (("in_", "no name of VHDL"), ("bus", "a reserved word of VHDL")):
        # (before yosys sees that this is no Verilog)
        status, said, _ = synthesised(program, room, "module t (", "--port", f"in={name}")
        if status != 1 or not said.startswith(f"from_rtl: --port in={name}: {name} is {why}"):
            sys.exit(f"--port in={name}: status {status}, {said}")
    return f"{len(TAKEN) + 1} small designs are taken, and {len(REFUSED)} refused with the names of their RTL; a port's name that BSDL can't have at once"


def with_buses(room):
    """The small library with cells that have buses, and one without an output."""
    return keep(os.path.join(room, "buses.lib"), text_of(os.path.join(EXAMPLE, "small.lib")).replace("  cell (INVX1)", BUSES + "  cell (INVX1)", 1))


def instances(program, room):
    """Each instance of a library's cell is in the netlist with its name, or told."""
    status, said, netlist = synthesised(program, room, INSTANCES, "--liberty", with_buses(room))
    told = sorted(line.replace("from_rtl: ", "", 1) for line in said.strip().split("\n"))
    lacking = [line for line in STAY if line not in netlist]
    if status or lacking or told != sorted(TOLD.strip().split("\n")):
        sys.exit(f"instances: status {status}, {said}{netlist}lacks {lacking}")
    return f"of 11 instances {len(STAY) - 1} stay with their names, and {len(re.findall('(?m)^(?:left out|made anew): ', TOLD))} are told; a supply and an inout that nothing drives, too"


def buses(program, room):
    """A library with buses is taken, and an instance of such a cell is refused by its name."""
    library = with_buses(room)
    status, said, netlist = synthesised(program, room, "module t (input a, output y); assign y = ~a; endmodule", "--liberty", library)
    if status or "INVX1" not in netlist:
        sys.exit(f"a library with a bus: status {status}, {said}{netlist}")
    for cell, links in (("RAM16", ".A(a), .Q(q), .CK(c)"), ("PAIR", ".D1(c), .D2(c), .Y(q[0])")):
        status, said, _ = synthesised(program, room, f"module t (input c, input [3:0] a, output [3:0] q); {cell} u1 ({links}); endmodule", "--liberty", library)
        if status != 1 or said.split("\n")[-2] != f"from_rtl: u1 is of {cell}, which is no gate and no listed cell":
            sys.exit(f"an instance of {cell}: status {status}, {said}")
    return "a library with buses and a bundle is taken, and instances of these cells are refused by their names"


def tried(program, room):
    yield example(program, room)
    yield small_designs(program, room)
    yield instances(program, room)
    yield buses(program, room)
    pulse, out = os.path.join(EXAMPLE, "pulse.v"), ["--out", os.path.join(room, "wrong.v"), "--program", program]
    wrong = {"no file": ["pulse", os.path.join(room, "missing"), *out], "a folder": ["pulse", room, *out], "no module": ["lacking", pulse, *out], "no word": []}
    wrong["no Liberty file"] = ["pulse", pulse, "--liberty", os.path.join(room, "missing"), *out]
    wrong["RTL as a Liberty file"] = ["pulse", pulse, "--liberty", pulse, *out]
    wrong["a folder to write to"] = ["pulse", pulse, "--out", room, "--program", program]
    wrong["a port that isn't there"] = ["pulse", pulse, "--port", "x=y", *out]
    small = os.path.join(EXAMPLE, "small.lib")
    wrong["two Liberty files"] = ["pulse", pulse, "--liberty", small, "--liberty", small, *out]
    wrong["no program"] = ["pulse", pulse, *out[:2], "--program", os.path.join(room, "missing")]
    yield refusals("from_rtl", wrong)
