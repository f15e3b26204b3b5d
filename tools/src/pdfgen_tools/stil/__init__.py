"""Tests as STIL (IEEE 1450)."""
