"""The way from the tests to differential/: what makes recordings and cases, the model of the scan, and the answers to case lines."""
import sys
from pathlib import Path

ROOT = Path(__file__).resolve().parents[2]
DIFFERENTIAL = ROOT / "differential"
DATA = ROOT / "python/tests/data"

sys.path.insert(0, str(DIFFERENTIAL))
