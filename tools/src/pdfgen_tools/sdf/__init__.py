"""Delays from SDF (IEEE 1497)."""
