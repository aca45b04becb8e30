"""Tests of the command yav."""
