"""Tools beside lowfare: they make cases of a shop's own files, say what a case surely doesn't mean, and show answers to people.

Nothing here is proved. The texts that they read and write are those of docs/FORMATS.md.
"""
