"""scripts/rename_ports gives ports other names, and changes nothing else: the program and yosys see the same netlist."""
import os, re, sys

from chips import TOP, keep, run, text_of
from script_trials import refusals, script

NEEDS = ("yosys",)
# Ports called as the module, as a cell, as a cell's port, as a key word and as what VHDL reserves; comments have their
# names, too.
NETLIST = r"""module \out (in, \bus , D, out, \y[0] , DFFR, \input , clk); // in, out
  input in, DFFR, clk, \input ; input [2:0] \bus
;
  input D; output out, \y[0] ; (* in *) wire in; /* out */ wire n, \in/n ;
  nand \in_p.g (n, in, \bus [0], \bus [1], \input ), g1 (\in/n , n, D);
  DFFR D2 (.D(\in ), .CK(clk), .RN(DFFR), .Q(\y[0] ));
  MUX2 in2 (.A(D), .B(\in/n ), .S(\bus [2]), .Y(out));
endmodule
"""
NAMES = {"in": "data", "bus": "bus_p", "D": "d", "out": "y", "y[0]": "y_0", "DFFR": "clear", "input": "in_put"}
WRONG = {"no port": "n=m", "a word that VHDL reserves": "in=out", "a name with `_` behind": "in=in_", "a name that a port has": "in=CLK", "a name that an instance has": "in=D2", "no `=`": "in"}


def proved_equal(room, old, new):
    """yosys renames the ports of one, and proves it equal to the other."""
    renames = "; ".join(f"rename {name} {name}_was" for name in NAMES) + "; " + "; ".join(f"rename {name}_was {other}" for name, other in NAMES.items())
    models = os.path.join(TOP, "models/cells_synthesis.v")
    lines = []
    for path, name, more in ((old, "gold", renames), (new, "gate", "")):
        lines += ["design -reset", f"read_verilog {models} {path}", "hierarchy -top out", "flatten", "proc", "async2sync", f"cd out; {more}; cd", f"rename out {name}", f"design -stash {name}"]
    lines += ["design -copy-from gold -as gold gold", "design -copy-from gate -as gate gate", "equiv_make gold gate both", "hierarchy -top both", "equiv_simple", "equiv_induct", "equiv_status -assert"]
    said = run(["yosys", "-p", "; ".join(line for line in lines if line)])
    return re.search(r"Of those cells (\d+) are proven", said)[1]


def tried(program, room):
    old = keep(os.path.join(room, "old.v"), NETLIST)
    new = keep(os.path.join(room, "new.v"), script("rename_ports", old, *(f"{name}={other}" for name, other in NAMES.items())))
    text = text_of(new)
    if text.count("\n") != NETLIST.count("\n") or "// in, out" not in text or "(* in *)" not in text or "/* out */" not in text:
        sys.exit(f"more than names are changed\n{text}")
    yield f"{len(NAMES)} ports of a netlist: yosys proves {proved_equal(room, old, new)} points equal"
    swapped = keep(os.path.join(room, "swapped.v"), script("rename_ports", new, "data=clear", "clear=data"))
    texts = []
    for path in (new, swapped):
        run([program, "canon", path, os.path.join(room, "canon.v")])
        texts.append(text_of(os.path.join(room, "canon.v")))
    if texts[1] != re.sub(r"\b(data|clear)\b", lambda found: {"data": "clear", "clear": "data"}[found[0]], texts[0]):
        sys.exit(f"two names exchanged: {texts[1]}")
    yield "two names exchanged: the canonical texts differ in these alone"
    changed = keep(os.path.join(room, "changed.v"), text.replace(".A(d)", ".A(data)"))
    try:
        proved_equal(room, old, changed)
    except SystemExit:
        yield "with one link changed yosys doesn't prove it"
    else:
        sys.exit("with one link changed yosys proves it")
    wrong = {what: [old, it] for what, it in WRONG.items()}
    wrong.update({"two ports of one name": [old, "in=a", "out=a"], "no file": [os.path.join(room, "none"), "a=b"], "no name": [old], "a text with an operator": [keep(os.path.join(room, "op.v"), "module m (input in, output y); assign y = ~in; endmodule\n"), "in=a"]})
    yield refusals("rename_ports", wrong)
