"""What to-bench and against-vvp share: how Yosys reads a design in Verilog, which module is its top, and which names of a
netlist stand for the bits of its ports. Nothing is proved of it.
"""
import json
import re
import shutil
import subprocess
import sys
import tempfile
from collections import namedtuple
from pathlib import Path

TOOL = Path(sys.argv[0]).name
# The files of a design, where it includes from, its macros, and its top with its parameters (NAME=VALUE).
Design = namedtuple("Design", "files folders macros top parameters")
# A port, with the name that each of its bits has in a netlist, bit 0 first.
Port = namedtuple("Port", "name direction bits names")
HEAD = re.compile(r"# made by to-bench: module (\S+), clock (\S+)((?: \S+=\S+)*)$")


def say(text):
    print(f"{TOOL}: {text}", file=sys.stderr)


def fail(text, status):
    say(text)
    sys.exit(status)


class Refused(Exception):
    """What stands against the design, in words."""


def need(tool, package=None):
    if not shutil.which(tool):
        raise Refused(f"{tool} isn't installed: it is in the package {package or tool}")


def read_files(design):
    """The command by which Yosys reads the files; those on its command line it reads too late to see a top."""
    words = [f"-I {folder}" for folder in design.folders] + [f"-D {macro}" for macro in design.macros]
    return " ".join(["read_verilog -sv"] + words + [f'"{name}"' for name in design.files])


def choose_top(design):
    """The command by which Yosys takes the top module, with its parameters."""
    words = [f"-chparam {parameter.replace('=', ' ', 1)}" for parameter in design.parameters]
    return " ".join([f"hierarchy -check -top {design.top}"] + words)


def yosys(commands):
    """What Yosys says while it runs commands, line by line."""
    with tempfile.NamedTemporaryFile("w", suffix=".ys") as script:
        script.write("\n".join(commands) + "\n")
        script.flush()
        ended = subprocess.run(["yosys", "-q", "-s", script.name], stdin=subprocess.DEVNULL, stdout=subprocess.PIPE,
                               stderr=subprocess.STDOUT)
    said = ended.stdout.decode(errors="replace").splitlines()
    if ended.returncode:
        raise Refused("yosys: " + next((line for line in said if "ERROR" in line), said[-1] if said else "no word"))
    return said


def with_top(design, work):
    """The design with its top: the one that is named, or else the module that no other one uses."""
    if design.top:
        return design
    text = Path(work, "read.il")
    yosys([read_files(design), f"write_rtlil {text}"])
    modules, used, module, hidden = [], set(), "", False
    for line in text.read_text(errors="replace").splitlines():
        word = line.split()
        if line.startswith("attribute \\blackbox"):
            hidden = True
        elif line.startswith("module "):
            module = word[1]
            modules += [] if hidden else [module]
            hidden = False
        elif line.startswith("  cell \\") and word[1] != module:
            used.add(word[1])
    tops = [module.lstrip("\\") for module in modules if module not in used]
    if len(tops) != 1:
        names = "no module stands at the top" if not tops else f"no other module uses {', '.join(tops)}"
        raise Refused(f"{names}: name the top by -t")
    return design._replace(top=tops[0])


class Names:
    """Names of a netlist, each given once. A byte that the grammar of .bench doesn't have in a name is a `_` there."""

    def __init__(self):
        self.taken = set()

    def take(self, name):
        name = re.sub(r"[()\[\],=;#]|[^\x21-\x7e]", "_", name)
        while name in self.taken:
            name += "_"
        self.taken.add(name)
        return name


def names_of_bits(name, wire):
    """A name for each bit of a wire, bit 0 first, by the numbers that the design gives them."""
    width, offset = len(wire["bits"]), wire.get("offset", 0)
    if width == 1:
        return [name]
    numbers = range(offset, offset + width)
    return [f"{name}_{number}" for number in (reversed(numbers) if wire.get("upto") else numbers)]


def ports_of(module, clock, names):
    """The ports of a module but the clock, with the names of their bits in a netlist."""
    ports = []
    for name, port in module["ports"].items():
        if port["direction"] == "inout":
            raise Refused(f"{name} is inout: let the module have its enable and its data, and write the bus by hand")
        if name != clock:
            bits = [names.take(bit) for bit in names_of_bits(name, port)]
            ports.append(Port(name, port["direction"], port["bits"], bits))
    return ports


def read_json(path, top):
    """The module that is the top, and all modules."""
    modules = json.loads(Path(path).read_text(errors="replace"))["modules"]
    return modules[top], modules


def head_of(netlist):
    """What to-bench wrote of a netlist: top, clock, parameters; nothing where it isn't of to-bench."""
    with open(netlist, errors="replace") as lines:
        told = HEAD.match(lines.readline().rstrip())
    return (told[1], told[2], told[3].split()) if told else ("", "", [])
