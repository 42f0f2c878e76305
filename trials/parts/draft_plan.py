"""Plans that scripts/draft_plan drafts are taken by `insert`, and what comes of them does what its BSDL file says."""
import os, re, subprocess, sys

from chips import TOP, keep, run, text_of
from script_trials import SCRIPTS, SMALL, demo, refusals, script

NEEDS = ()
# Ports with names of every sort, and a clear that comes through a gate; what stands behind each bit in its plan.
NAMES = r"""module \my-chip (input in, input [2:0] \bus , inout out, output clock, input CLK, input clk, input \a[0] , output [0:0] y, output \of_ );
  wire n, r;
  buf (n, in);
  bufif1 (out, n, in);
  and g (clock, in, \bus [0], \a[0] , out);
  or TCK (r, \bus [0], \bus [2]);
  buf bs_y (y[0], 1'b0);
  MUX2 B (.A(in), .B(\bus [1]), .S(\bus [1]), .Y(\of_ ));
  DFFR f (.D(n), .CK(clk), .RN(r), .Q());
endmodule
"""
CELLS = {"in": "BC_1", "bus[2]": "BC_4", "bus[1]": "BC_1", "bus[0]": "BC_4", "out": "BC_7", "clock": "BC_1", "CLK": "BC_1", "clk": "BC_4"}
CELLS.update({"a[0]": "BC_1", "y[0]": "BC_1", "of_": "BC_1"})
CODE = "10100110100101101001010101010110"
BARRED = ("in", "bus", "out", "clk", "a[0]", "of_")
# A table of the counter's pins, and the lines that come of it: first those of the table, in its order.
TABLE = """# cells, ports, pins
cell, port, pin
,q[0],A1
,en,7
BC_2,q[1],2
linkage,VDD,18
tck,JTCK,1
BC_4,oe
,rn,

"""
LINES = """tck JTCK 1
tms TMS 13
tdi TDI 14
tdo TDO 15
trst TRST 16
pin q[0] A1 BC_1
pin en 7 BC_1
pin q[1] 2 BC_2
pin oe 5 BC_4
pin rn 4 BC_4
pin clk 3 BC_4
pin q[7] 6 BC_1
pin q[6] 8 BC_1
pin q[5] 9 BC_1
pin q[4] 10 BC_1
pin q[3] 11 BC_1
pin q[2] 12 BC_1
linkage VDD 18
"""
WRONG_ROWS = {
    "no bit": "x,1,", "a bit twice": "en,1,\nen,2,", "a pin twice": "en,a1,\noe,A1,", "a pin that is none": "en,1.2,", "a cell that is none": "en,1,BC_3",
    "a clock with BC_1": "clk,1,BC_1", "a vector with a pin": "q,1,", "four columns": "en,1,BC_1,x", "linkage without a pin": "VDD,,linkage", "no port": ",1,BC_1", "tck twice": "A,1,tck\nB,2,tck",
    "linkage that is a port": "EN,3,linkage",
}
WRONG_ORDERS = {"no port in an order": "clk x", "a bit twice in an order": "q q[0]", "no order": "# none", "a DEF file without pins": "VERSION 5.6 ;\nDESIGN x ;\nEND DESIGN\n"}
# Pins round a die, of which one isn't placed, one is a supply, and one isn't the chip's.
DEF = """VERSION 5.6 ;
BUSBITCHARS "[]" ;
DESIGN counter8 ;
DIEAREA ( 0 0 ) ( 1000 800 ) ;
PINS 9 ;
- oe + NET oe + DIRECTION INPUT ;
- en + NET en + LAYER metal2 ( 0 0 ) ( 1 1 ) + PLACED ( 1000 300 ) N ;
- q[7] + NET q[7] + LAYER metal2 ( 0 0 ) ( 1 1 ) + FIXED ( 2 700 ) N ;
- q\\[6\\] + NET q[6] + PLACED ( 0 20 ) N ;
- q[5] + NET q[5] + DIRECTION OUTPUT
  + PLACED ( 500 0 ) N ;
- q[4] + NET q[4] + PLACED ( 900 0 ) N ;
- q[3] + NET q[3] + PLACED ( 300 800 ) N ;
- VDD + NET VDD + USE POWER + PLACED ( 1000 500 ) N ;
- other + NET other + PLACED ( 1000 600 ) N ;
END PINS
END DESIGN
"""
ROUND = ["q[6]", "q[7]", "q[3]", "en", "q[4]", "q[5]", "oe"]


def cells_of(plan):
    return dict(re.findall(r"^pin (\S+) \S+ (BC_\d)$", plan, re.M))


def taken(program, room, name, netlist, *more, library=()):
    """The draft of a netlist, of which `insert` makes a chip that does what its file says."""
    plan, *made = (os.path.join(room, end) for end in ("draft.plan", "draft.v", "draft.bsd", "draft.events"))
    keep(plan, script("draft_plan", netlist, *library, *more, "--program", program))
    run([program, "insert", netlist, plan, *made[:2], *library])
    run([program, "vectors", *made[1:]])
    said = run([program, "check", *made, *library]).strip()
    if not re.fullmatch(r"done \d+ 0", said):
        sys.exit(f"{name}: {said}")
    return text_of(plan), said


def names(program, room):
    """What is drafted of the module with the names: each cell, and a comment at each port that is refused."""
    netlist, plan = keep(os.path.join(room, "names.v"), NAMES), os.path.join(room, "names.plan")
    keep(plan, run([sys.executable, os.path.join(SCRIPTS, "draft_plan"), netlist, "--program", program], (1,)))
    text = text_of(plan)
    if cells_of(text) != CELLS:
        sys.exit(f"the cells are {cells_of(text)}")
    told = re.findall(r"^# (\S+): .*`insert` refuses this port", text, re.M)
    if tuple(told) != BARRED or "# clock: a word that BSDL reserves" not in text:
        sys.exit(f"comments stand at {told}")
    outputs = [os.path.join(room, end) for end in ("names.out.v", "names.bsd")]
    said = run([program, "insert", netlist, plan, *outputs], (1,))
    # With the names that are proposed it is taken.
    pairs = re.findall(r"^# (\S+): .*in the netlist call it (\w+),", text, re.M)
    other = keep(os.path.join(room, "names2.v"), script("rename_ports", netlist, *(f"{old}={new}" for old, new in pairs)))
    keep(plan, script("draft_plan", other, "--program", program))
    run([program, "insert", other, plan, *outputs])
    return f"a module with names of every sort: {said.strip()}; with {' '.join('='.join(it) for it in pairs)} it is taken"


def with_usercode(program, room):
    """The counter with USERCODE: its plan is of version 2, and the chip gives the code."""
    plan, said = taken(program, room, "counter8", os.path.join(SMALL[0][0], "counter8.v"), "--usercode", CODE)
    if not re.search(rf"^plan 2$(?s:.*)^opcode USERCODE 0101$(?s:.*)^usercode {CODE}$", plan, re.M):
        sys.exit(f"no USERCODE in\n{plan}")
    return f"counter8 with USERCODE: {said}"


def tables(program, room):
    """The counter's plan from a table, and in the order of a list and of a DEF file."""
    counter, table = os.path.join(TOP, "examples/counter8.v"), keep(os.path.join(room, "pins.csv"), TABLE)
    plan, said = taken(program, room, "counter8", counter, "--pins", table)
    lines = "".join(re.findall(r"(?m)^(?:t\w+ \w+ \w+|pin .*|linkage .*)\n", plan))
    if lines != LINES:
        sys.exit(f"of the table comes\n{lines}")
    order = keep(os.path.join(room, "order"), "# all of q first\nq en\nrn\n")
    plan, _ = taken(program, room, "counter8", counter, "--pins", table, "--order", order)
    if list(cells_of(plan)) != [*(f"q[{number}]" for number in range(7, -1, -1)), "en", "rn", "clk", "oe"] or "pin q[0] A1 BC_1" not in plan:
        sys.exit(f"in the order of a list there stands\n{plan}")
    for text in (DEF, DEF.replace("\n", "\r\n"), re.sub("DIEAREA.*\n", "", DEF), re.sub(r"q\[(\d)\]", r"q<\1>", DEF)):
        plan, _ = taken(program, room, "counter8", counter, "--order", keep(os.path.join(room, "chip.def"), text))
        if list(cells_of(plan))[: len(ROUND)] != ROUND:
            sys.exit(f"in the order of a DEF file there stands\n{plan}")
    for rows in WRONG_ROWS.values():
        words = [sys.executable, os.path.join(SCRIPTS, "draft_plan"), counter, "--program", program, "--pins", keep(table, rows)]
        done = subprocess.run(words, stdin=subprocess.DEVNULL, capture_output=True, text=True)
        if done.returncode != 1 or done.stdout or not done.stderr.startswith(f"draft_plan: {table}: line {rows.count(chr(10)) + 1}: "):
            sys.exit(f"a table of {rows!r}: {done.stdout}{done.stderr}")
    wrong = {what: [counter, "--program", program, "--order", keep(os.path.join(room, f"{number}.order"), rows)] for number, (what, rows) in enumerate(WRONG_ORDERS.items())}
    wrong["no table"] = [counter, "--program", program, "--pins", os.path.join(room, "missing")]
    return f"the counter from a table, {said}, in the order of a list and of a DEF file; {len(WRONG_ROWS)} wrong tables are told by the line, and {refusals('draft_plan', wrong)}"


def supplies(program, room):
    """A port that is a supply by its name is told, in the plan and on standard error; LIB may stand behind options."""
    netlist = keep(os.path.join(room, "supply.v"), "module m (input a, inout VDD, output y);\n  bufif1 (VDD, 1'b0, 1'b0);\n  INVX1 i (.A(a), .Y(y));\nendmodule\n")
    library = os.path.join(TOP, "examples/synthesis/small.cells")
    done = subprocess.run([sys.executable, os.path.join(SCRIPTS, "draft_plan"), netlist, "--program", program, library], stdin=subprocess.DEVNULL, capture_output=True, text=True)
    if done.returncode or not re.search(r"^# VDD: a supply, .*\npin VDD 2 BC_7$", done.stdout, re.M) or not done.stderr.startswith("draft_plan: VDD: a supply, "):
        sys.exit(f"a supply: status {done.returncode}, {done.stdout}{done.stderr}")
    return "a port VDD is told as a supply, in the plan and on standard error"


def tried(program, room):
    for folder, name in SMALL:
        plan, said = taken(program, room, name, os.path.join(folder, name + ".v"))
        kinds = sorted(cells_of(plan).values())
        yield f"{name}: {', '.join(f'{kinds.count(kind)} of {kind}' for kind in sorted(set(kinds)))}; {said}"
        if name == "counter8" and cells_of(plan) != cells_of(text_of(os.path.join(folder, name + ".plan"))):
            sys.exit("the counter has other cells than in its own plan")
    for folder, name, end in (("examples", "accumulator.v", "accumulator.lib"), ("examples/synthesis", "pulse.net.v", "small.cells")):
        netlist, library = (os.path.join(TOP, folder, it) for it in (name, end))
        plan, said = taken(program, room, name, netlist, library=[library])
        yield f"{name}, of a library's cells: BC_4 at {', '.join(bit for bit, kind in cells_of(plan).items() if kind == 'BC_4')}; {said}"
    yield names(program, room)
    yield with_usercode(program, room)
    yield supplies(program, room)
    yield tables(program, room)
    large, _ = demo(program, room, 9999)
    kinds = cells_of(taken(program, room, "demo 9999", large)[0])
    yield f"demo 9999 with test logic, to which more is added: BC_4 at {', '.join(bit for bit, kind in kinds.items() if kind == 'BC_4')}"
    text = text_of(os.path.join(SMALL[0][0], "counter8.v"))
    wrong = {"no file": [os.path.join(room, "missing"), "--program", program], "a folder": [room, "--program", program], "no word": []}
    for what, changed in spoiled(text).items():
        wrong[what] = [keep(os.path.join(room, f"{what.replace(' ', '_')}.v"), changed), "--program", program]
    wrong["a user code of 31 bits"] = [os.path.join(SMALL[0][0], "counter8.v"), "--usercode", CODE[1:], "--program", program]
    linked = os.path.join(TOP, "examples/accumulator.v")
    wrong["cells of a library without it"] = [linked, "--program", program]
    wrong["a netlist as the library"] = [linked, linked, "--program", program]
    wrong["no library of the name"] = [linked, os.path.join(room, "missing"), "--program", program]
    wrong["no program"] = [os.path.join(SMALL[0][0], "counter8.v"), "--program", os.path.join(room, "missing")]
    yield refusals("draft_plan", wrong)


def spoiled(text):
    """The counter, spoiled."""
    texts = {"a text that is cut off": text[: len(text) // 2], "no words": "", "a plan": "plan 1\n"}
    texts["a cell that is not there"] = text.replace("DFFR", "DFFRX")
    texts["an output without a driver"] = text.replace("bufif1 z0 (q[0], c[0], oe), ", "bufif1 ")
    texts["a loop"] = text.replace("xor x0 (d[0], c[0], en)", "xor x0 (d[0], d[0], en)")
    texts["a module without ports"] = "module m ();\nendmodule\n"
    return texts
