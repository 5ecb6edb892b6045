"""What the kinds of test share. Its import lets Python find the project's own modules too: no test says where they are."""
import sys
from pathlib import Path

ROOT = Path(__file__).resolve().parents[2]
FOLDERS = (".", "tests", "tools/lib", "tools/gen", "cli", "console", "hawkbit")
sys.path += [it for it in (str(ROOT / folder) for folder in FOLDERS) if it not in sys.path]
