"""Where things stand in the repository."""
import pathlib

TOP = pathlib.Path(__file__).resolve().parent.parent.parent
CASES = TOP / "cases"
# The program that the gate leaves.
PROGRAM = TOP / "crates" / "airbook" / "out" / "airbook"
