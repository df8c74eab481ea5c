"""What the tools for operators share: `what_if.py`, `lint.py`, `explain.py`, `compare_runs.py` and `topology.py`. Nothing here decides
what the checker decides: the tools read texts as docs/FORMATS.md has them, and ask the program for the rest."""
