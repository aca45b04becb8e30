"""Tests of the exports: BLIF and Verilog."""
