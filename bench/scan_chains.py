"""Scan files of a netlist, for the scripts beside it: chains of so many flip-flops, in the order of the netlist or shuffled."""
import random
import re

FLIP_FLOP = re.compile(r"^[^\S\n]*([^\s=#]+)\s*=\s*DFF\s*\(", re.IGNORECASE | re.MULTILINE)
USUAL_LENGTH = 100


def flip_flops(net):
    """The names of a netlist's flip-flops, in its order."""
    return FLIP_FLOP.findall(net)


def scan_file(names, length=USUAL_LENGTH, seed=None):
    """The text of a scan file of these flip-flops; with a seed they are shuffled."""
    names = list(names)
    if seed is not None:
        random.Random(seed).shuffle(names)
    chains = [names[at:at + length] for at in range(0, len(names), length)]
    return "\n".join("".join(name + "\n" for name in chain) for chain in chains)
