"""That the gate finds every test, passes nothing that it should refuse, and that the must-fail edits fit."""
