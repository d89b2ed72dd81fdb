"""Pictures of Dirac streams.

    import jevmutzal

    for picture in jevmutzal.decode("clip.drc"):
        picture.y, picture.u, picture.v     # bytes, row by row
        picture.arrays()                    # the same as numpy arrays, where numpy is there
        picture.format.rate                 # what the stream says of its pictures

A stream that breaks a rule of the format raises Fault behind the pictures before it, with the number of the unit, the
number of the byte and the cause. The work is done by the shared object libjevmutzal.so.1.
"""
from ._decoder import Decoder, Format, Picture, decode
from ._library import CAUSES, Fault, LibraryMissing

__all__ = ["CAUSES", "Decoder", "Fault", "Format", "LibraryMissing", "Picture", "decode"]
__version__ = "1.0.0"
