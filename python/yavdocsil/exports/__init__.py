"""Networks for other tools: BLIF and Verilog. Each is a function of a Diagram, and needs no library."""
