"""What the tools share: the top of the checkout, and the ways to the modules of companions/ and of editors/."""
import pathlib
import sys

sys.dont_write_bytecode = True
TOP = pathlib.Path(__file__).resolve().parent.parent
sys.path[:0] = [str(TOP), str(TOP / "editors")]
