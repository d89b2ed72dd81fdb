"""The plain decoder and encoder of bench/reference, which read and write bits, fields and arithmetic blocks."""
import pathlib
import sys

TOP = pathlib.Path(__file__).resolve().parent.parent.parent
_REFERENCE = str(TOP / "bench" / "reference")

if _REFERENCE not in sys.path:
    sys.path.append(_REFERENCE)

import decoder
import encoder

__all__ = ["TOP", "decoder", "encoder"]
