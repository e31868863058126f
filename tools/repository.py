"""Where the repository stands. Importing it puts the Python package on the path, whose tables the tools share."""
import os
import sys

ROOT = os.path.dirname(os.path.dirname(os.path.abspath(__file__)))
PACKAGE = os.path.join(ROOT, "python")
if PACKAGE not in sys.path:
    sys.path.insert(0, PACKAGE)
