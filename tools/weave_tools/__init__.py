"""What the programs of tools/ are made of.

It needs Python 3.8 or later and its standard library alone. Readers and rules are written from
docs/FORMATS.md and share nothing with weave.
"""
