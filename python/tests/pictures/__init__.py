"""Tests of the pictures: SVG, DOT, text, and the summary."""
