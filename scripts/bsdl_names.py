"""Which names can stand in a BSDL file: those of VHDL that aren't reserved; and what BSDL's annex reserves besides."""
import re

# The reserved words of VHDL-93; `insert` and `showbsdl` refuse them as names.
VHDL = frozenset(
    """
    abs access after alias all and architecture array assert attribute begin block body buffer bus case component configuration
    constant disconnect downto else elsif end entity exit file for function generate generic group guarded if impure in inertial
    inout is label library linkage literal loop map mod nand new next nor not null of on open or others out package port postponed
    procedure process pure range record register reject rem report return rol ror select severity shared signal sla sll sra srl
    subtype then to transport type unaffected units until use variable wait when while with xnor xor
    """.split()
)

# The words that BSDL's own annex reserves, beside BC_0 to BC_99; `insert` writes them; other readers refuse some.
ANNEX = frozenset(
    """
    at_pins bidir bidir_in bidir_out both boundary boundary_length boundary_register bsdl_extension bypass cap cap_data captures
    cell_data cell_info cell_type clamp clock clock_info clock_level compliance_patterns component_conformance control controlr
    design_warning device_id differential_current differential_voltage expect_data extest highz id_bits id_string idcode
    idcode_register input instruction_capture instruction_length instruction_opcode instruction_private internal intest
    intest_execution keeper low observe_only one output2 output3 physical_pin_map pi pin_map pin_map_string po port_grouping preload
    pull0 pull1 register_access runbist runbist_execution sample tap_scan_clock tap_scan_in tap_scan_mode tap_scan_out
    tap_scan_reset upd usercode usercode_register wait_duration weak0 weak1 x z zero
    """.split()
)


# What ports are called that are supplies, whatever stands behind.
SUPPLY = re.compile(r"[adp]?(vdd|vss|vcc|vee|gnd|vpwr|vgnd|vpb|vnb)", re.I)
SUPPLY_NOTE = "a supply, by its name, and it has a boundary cell: leave it out of the module, and name its pin in a line `linkage` of the plan"


def is_supply(name):
    return SUPPLY.match(name) is not None


def is_identifier(name):
    """A letter, then letters, digits and single `_`, the last of them no `_`; at most 255."""
    return len(name) <= 255 and re.fullmatch(r"[A-Za-z][A-Za-z0-9]*(_[A-Za-z0-9]+)*", name) is not None


def why_barred(name):
    """Why the name can't stand in a BSDL file, in words; None where it can."""
    if not is_identifier(name):
        return "no name of VHDL (a letter, then letters, digits and single `_`, the last of them no `_`)"
    return "a reserved word of VHDL" if name.lower() in VHDL else None


def is_annex_word(name):
    return name.lower() in ANNEX or re.fullmatch(r"bc_\d\d?", name.lower()) is not None
