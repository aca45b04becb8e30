"""Tests of the pages: what they show is what is so."""
