"""Makes the modules of the model and of drawn/ importable: it is imported before them."""
import pathlib
import sys

MODEL = pathlib.Path(__file__).resolve().parent.parent
sys.path[1:1] = [str(MODEL), str(MODEL / "drawn")]
