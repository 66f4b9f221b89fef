"""A second reading of the profile, written from docs/PROFILE.md alone and for clearness alone.

`tests/compare` compares its verdicts with the program's. Nothing here is fast: a module of some
thousand instructions takes seconds.
"""
