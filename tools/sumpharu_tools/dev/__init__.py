"""The commands for who changes this repository, and where they find what they read of it."""
import pathlib

ROOT = pathlib.Path(__file__).resolve().parents[3]
# The entry of the tools, and the program as the script `sumpharu` builds it.
ENTRY = str(ROOT / "sumpharu-tools")
PROGRAM = ROOT / "crates/sumpharu/out/sumpharu"
