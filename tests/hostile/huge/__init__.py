"""Texts of many megabytes that no one types, and what the program has to answer to each."""
