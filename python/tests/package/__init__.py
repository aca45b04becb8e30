"""Tests of the package itself: tables, networks, diagrams, its types, and how it is installed."""
