"""Tests of the readers of drawings, spreadsheets, PLA and BLIF, and of what they write."""
