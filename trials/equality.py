"""How yosys proves two netlists equal."""
import re

from chips import run

# Point by point: ports of one name, and with EVERY net of one name; by the first, nets that nothing reads are dropped.
PORTS = ("equiv_make gold gate equiv", "hierarchy -top equiv", "opt_clean", "equiv_simple -short", "equiv_simple", "equiv_status")
EVERY = tuple(step for step in PORTS if step != "opt_clean")
# All outputs at once.
WHOLE = ("miter -equiv -flatten -make_outputs gold gate both", "hierarchy -top both", "sat -verify -prove trigger 0 both")


def by_points(steps, points=EVERY):
    """How many points of the modules `gold` and `gate` that the steps leave yosys proves equal, how many it leaves open,
    and what it says; None for both where it comes to no count."""
    log = run(["yosys", "-p", "; ".join([*steps, *points])])
    found = re.search(r"Of those cells (\d+) are proven and (\d+) are unproven", log)
    return (int(found[1]), int(found[2]), log) if found else (None, None, log)


def proved(steps):
    """What yosys proves of these modules: each port by itself, or where it can't do that for all, all of them at once.
    None where it proves neither, and what it says."""
    shown, left, log = by_points(steps, PORTS)
    if left == 0:
        return f"{shown} points proved", log
    log = run(["yosys", "-p", "; ".join([*steps, *WHOLE])], (0, 1))
    if left is None or "SAT proof finished - no model found: SUCCESS!" not in log:
        return None, log
    return f"{shown + left} points proved, at once", log
