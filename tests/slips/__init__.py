"""Deliberate slips of the reference, which the comparison of the calls must find."""
