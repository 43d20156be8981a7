"""Tests of the rehearsal package and of tools/contracts. They need no built program: what the programs print is stored.
Two do need them, and the gate runs those behind `rt ci`: `tests.programs` and `tests.sealed`.

    python3 -m unittest discover -s tests -t .

What is stored of the examples, in golden/, the built programs write again:

    python3 -m tests.golden
"""
