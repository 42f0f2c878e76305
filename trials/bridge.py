"""A chip that Icarus Verilog plays, and OpenOCD that scans it over its driver `remote_bitbang`."""
import os, socket, subprocess

from chips import CELLS, keep, run, spelled


def bench(module, tap, values, beside=(), unknown=0):
    """A bench that does what remote_bitbang asks for on its standard input, with these values at the inputs; it ends
    with the readings. Lines that stand beside the chip have three tasks: `asking` before a letter is followed,
    `answered` behind it, and `pulsed` for a pulse of the system's reset, which is no pin of the chip. Where TDO isn't
    known it reads as `unknown`."""
    inputs = [(number, port) for number, port in enumerate(module.ports) if port.direction == "input"]
    names = {port.name: f"p{number}" for number, port in enumerate(module.ports)}
    clock, mode, data, out, reset = (names[tap[name]] for name in ("CLOCK", "MODE", "IN", "OUT", "RESET"))
    yield from ("`timescale 1ns/1ns", "module trial_bench;", "  integer asked;")
    for number, port in enumerate(module.ports):
        yield f"  {'reg' if port.direction == 'input' else 'wire'} {port.range()}p{number};"
    links = ", ".join(f".{spelled(port.name)}(p{number})" for number, port in enumerate(module.ports))
    yield from (f"  {spelled(module.name)} chip ({links});", *beside, "  initial begin")
    for number, port in inputs:
        for pin, index in zip(port.pins(), port.bits()):
            yield f"    p{number}{'' if index is None else f'[{index}]'} = {values.get(pin, 0)};"
    yield from ("    #10 asked = $fgetc(32'h8000_0000);", '    while (asked != -1 && asked != "Q") begin')
    yield from ["      asking;"] if beside else []
    yield f'      if (asked >= "0" && asked <= "7") {{{clock}, {mode}, {data}}} = asked - "0";'
    yield f'      else if (asked == "r" || asked == "s") {reset} = 1;'
    yield f'      else if (asked == "t" || asked == "u") {reset} = 0;'
    yield f"""      else if (asked == "R") begin $write("%b", {out} {"!== 1'b0" if unknown else "=== 1'b1"}); $fflush(32'h8000_0001); end"""
    yield from ("      #10;", *(["      answered;", '      if (asked == "s") pulsed;'] if beside else []))
    yield from ("      asked = $fgetc(32'h8000_0000);", "    end")
    yield from (f'    $display("\\n{port.name} %b", p{number});' for number, port in enumerate(module.ports) if port.direction != "input")
    yield from ("    $finish;", "  end", "endmodule")


def simulated(room, lines, *netlists):
    """The simulation of a bench's lines and netlists, as a path."""
    simulation = os.path.join(room, "bench.vvp")
    text = keep(os.path.join(room, "bench.v"), "\n".join(lines) + "\n")
    run(["iverilog", "-g2001", "-s", "trial_bench", "-o", simulation, text, *netlists, CELLS])
    return simulation


def bridged(room, simulation, commands):
    """What OpenOCD prints, and the simulation after its last answer."""
    path = os.path.join(room, "bits")
    with socket.socket(socket.AF_UNIX) as listening:
        listening.bind(path)
        listening.listen()
        chip = subprocess.Popen(["vvp", "-n", simulation], stdin=subprocess.PIPE, stdout=subprocess.PIPE)
        script = keep(os.path.join(room, "steps.cfg"), "\n".join(commands) + "\n")
        scans = subprocess.Popen(["openocd", "-f", script], stdin=subprocess.DEVNULL, stdout=subprocess.PIPE, stderr=subprocess.STDOUT, text=True)
        listening.settimeout(60)
        asking, _ = listening.accept()
        with asking:
            while asked := asking.recv(4096):
                chip.stdin.write(asked)
                chip.stdin.flush()
                if asked.count(b"R"):
                    asking.sendall(chip.stdout.read(asked.count(b"R")))
                if b"Q" in asked:
                    break
        said = scans.communicate()[0]
        pins = chip.communicate()[0].decode()
    os.remove(path)
    return said, pins
