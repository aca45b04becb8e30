"""The papers once more, plainly: the implementation that everything is compared with, and tests of it."""
