"""Netlists from designs that yosys mapped to simple gates."""
