"""The random calls: scenes, each of one call or of several in turn."""
