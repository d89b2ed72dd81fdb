"""The shared object, as jevmutzal.h declares it."""
import ctypes
import ctypes.util
import functools
import os
import pathlib

VERSION = 1
SHARED = "libjevmutzal.so.1"

OK, PICTURE, NEEDS, END = 0, 1, 2, 3
FAULT, NO_MEMORY, STOPPED, CLOSED, NO_PICTURE, SMALL, UNKNOWN, FINISHED = -1, -2, -3, -4, -5, -6, -7, -8

# How many causes of faults there are, and room for the name of each.
CAUSES = 36
CAUSE_ROOM = 32


class LibraryMissing(OSError):
    """The shared object isn't found, or is of another version."""


class Handle(ctypes.Structure):
    """struct jev_decoder"""

    _fields_ = [("at", ctypes.c_void_p), ("is_open", ctypes.c_bool)]


class Frame(ctypes.Structure):
    """struct jev_frame"""

    _fields_ = [
        ("number", ctypes.c_uint32),
        ("width", ctypes.c_uint32),
        ("height", ctypes.c_uint32),
        ("chroma_width", ctypes.c_uint32),
        ("chroma_height", ctypes.c_uint32),
        ("cause", ctypes.c_uint32),
        ("unit", ctypes.c_uint64),
        ("at", ctypes.c_uint64),
    ]


class FormatFields(ctypes.Structure):
    """struct jev_format"""

    _fields_ = [
        ("width", ctypes.c_uint32),
        ("height", ctypes.c_uint32),
        ("chroma", ctypes.c_uint32),
        ("interlaced", ctypes.c_uint32),
        ("fields", ctypes.c_uint32),
        ("base", ctypes.c_uint32),
        ("rate_numerator", ctypes.c_uint64),
        ("rate_denominator", ctypes.c_uint64),
        ("aspect_numerator", ctypes.c_uint64),
        ("aspect_denominator", ctypes.c_uint64),
        ("luma_offset", ctypes.c_uint64),
        ("luma_excursion", ctypes.c_uint64),
        ("chroma_offset", ctypes.c_uint64),
        ("chroma_excursion", ctypes.c_uint64),
        ("clean_width", ctypes.c_uint64),
        ("clean_height", ctypes.c_uint64),
        ("clean_left", ctypes.c_uint64),
        ("clean_top", ctypes.c_uint64),
    ]


_HANDLE = ctypes.POINTER(Handle)
_SIZE = ctypes.c_size_t
# each function's result and its parameters; bytes are c_void_p, so that a piece may have zeros in it
FUNCTIONS = {
    "jev_version": (ctypes.c_uint32, []),
    "jev_decoder_open": (ctypes.c_int32, [_HANDLE]),
    "jev_decoder_send": (ctypes.c_int32, [_HANDLE, ctypes.c_void_p, _SIZE]),
    "jev_decoder_finish": (ctypes.c_int32, [_HANDLE]),
    "jev_decoder_next": (ctypes.c_int32, [_HANDLE, ctypes.POINTER(Frame)]),
    "jev_decoder_plane": (ctypes.c_int32, [_HANDLE, ctypes.c_uint32, ctypes.c_void_p, _SIZE, _SIZE]),
    "jev_decoder_format": (ctypes.c_int32, [_HANDLE, ctypes.POINTER(FormatFields)]),
    "jev_decoder_close": (None, [_HANDLE]),
    "jev_cause_name": (_SIZE, [ctypes.c_uint32, ctypes.c_void_p, _SIZE]),
}


def _candidates():
    """Where the shared object may be: as JEVMUTZAL_LIBRARY says, else in the package, else where the system looks."""
    named = os.environ.get("JEVMUTZAL_LIBRARY")
    if named:
        return [named]
    beside = pathlib.Path(__file__).resolve().parent / SHARED
    return [*([str(beside)] if beside.exists() else []), SHARED, *filter(None, [ctypes.util.find_library("jevmutzal")])]


def _opened():
    failed = []
    for name in _candidates():
        try:
            return ctypes.CDLL(name)
        except OSError as error:
            failed.append(str(error))
    hint = "build it by `make -C capi` and install it, or name it in JEVMUTZAL_LIBRARY"
    raise LibraryMissing(f"{SHARED} isn't there ({'; '.join(failed)}): {hint}")


@functools.lru_cache(maxsize=None)
def library():
    """The functions of the shared object, loaded at the first call."""
    found = _opened()
    try:
        for name, (result, parameters) in FUNCTIONS.items():
            function = getattr(found, name)
            function.restype, function.argtypes = result, parameters
    except AttributeError as error:
        raise LibraryMissing(f"the shared object isn't libjevmutzal: {error}") from None
    if found.jev_version() != VERSION:
        raise LibraryMissing(f"libjevmutzal is of version {found.jev_version()}, and {VERSION} is wanted")
    return found


def cause_name(cause):
    """The name of the cause of a fault."""
    room = (ctypes.c_uint8 * CAUSE_ROOM)()
    return bytes(room[: library().jev_cause_name(cause, room, CAUSE_ROOM)]).decode("ascii")


class Fault(ValueError):
    """The first fault of a stream: in the unit of this number, at the byte of this number, both from 0; and why."""

    def __init__(self, unit, at, cause):
        super().__init__(unit, at, cause)
        self.unit, self.at, self.cause = unit, at, cause

    def __str__(self):
        return f"{self.cause} in unit {self.unit} at byte {self.at}"
