"""Where the program, the tools and the examples are. The modules of tools/ can be imported after this one."""
import os
import sys

ROOT = os.path.dirname(os.path.dirname(os.path.abspath(__file__)))
WEAVE, FUZZ = os.path.join(ROOT, "weave"), os.path.join(ROOT, "fuzz")
TOOLS, EXAMPLES = os.path.join(ROOT, "tools"), os.path.join(ROOT, "examples")
sys.path.insert(0, TOOLS)
