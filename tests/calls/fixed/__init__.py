"""The calls that are written out, so that each is sure to be made."""
