"""Where the tests find what they test. Once this is imported, the tools' package and the rows can be."""
import pathlib
import shutil
import sys

ROOT = pathlib.Path(__file__).resolve().parents[2]
# The entry of the tools, and the program as the script `sumpharu` builds it.
TOOLS = ROOT / "sumpharu-tools"
PROGRAM = ROOT / "crates/sumpharu/out/sumpharu"

sys.path.insert(0, str(ROOT / "tools"))


def copy_tools(tree):
    """Puts the tools into another tree."""
    shutil.copytree(ROOT / "tools/sumpharu_tools", tree / "tools/sumpharu_tools", ignore=shutil.ignore_patterns("__pycache__"))
    shutil.copy(TOOLS, tree / TOOLS.name)
