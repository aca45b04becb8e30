"""The exports held to tools from elsewhere: the networks compared, and a module for each tool or kind of tool."""
