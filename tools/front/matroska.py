"""Streams in Matroska, each picture with the time at which it is shown, by mkvmerge.

A bare stream has no times, only a rate, and its pictures stand in the order of their coding. mkvmerge alone gives each
the time of its place in the file, ffmpeg gives all the same; players go by these.
"""
import os
import subprocess
import tempfile

from times_of_pictures import places_of

from .plain import decoder
from .refusal import Refusal
from .sequence import read_header
from .sources import wanted
from .units import END_OF_SEQUENCE, PICTURES, SEQUENCE_HEADER, number_at, read_units


def _times_of_sequence(begin, numbers, rate):
    """When pictures of these numbers, in coding order, are shown, from a time on; and when what is behind them is."""
    places = places_of(numbers) if numbers else []
    return [begin + place / rate for place in places], begin + len(places) / rate


def times_of(source):
    """When each picture of a stream is shown, in seconds, in the order of its bytes. It may want its end unit."""
    times, begin, numbers, rate = [], 0, [], None
    try:
        for unit in read_units(source):
            if unit.code == SEQUENCE_HEADER:
                rate = rate or read_header(unit.payload).pictures_a_second()
            elif unit.code in PICTURES:
                numbers.append(number_at(unit.payload, 0))
            elif unit.code == END_OF_SEQUENCE and rate:
                found, begin = _times_of_sequence(begin, numbers, rate)
                times, numbers, rate = times + found, [], None
    except (decoder.StreamFault, decoder.Fault) as fault:
        if fault.cause != "MissingEnd":
            raise Refusal(f"the stream has a fault, {fault.cause}: `dirac repair` makes it whole") from None
    return times + (_times_of_sequence(begin, numbers, rate)[0] if rate else [])


def wrap(stream, target):
    """Puts the stream of a file into a Matroska file, byte for byte."""
    with open(stream, "rb") as file:
        times = times_of(file)
    if not times:
        raise Refusal(f"{target}: the stream has no picture, and Matroska wants one")
    command = wanted("mkvmerge", f"to write {target}", "mkvtoolnix")
    with tempfile.NamedTemporaryFile("w", suffix=".times") as file:
        file.write("# timestamp format v4\n" + "".join(f"{float(1000 * time):.6f}\n" for time in times))
        file.flush()
        words = [command, "-q", "-o", f"{target}.part", "--timestamps", f"0:{file.name}", stream]
        done = subprocess.run(words, stdin=subprocess.DEVNULL, capture_output=True, text=True, errors="replace")
    # its status is 1 where it only warns
    if done.returncode not in (0, 1):
        lines = (done.stdout + done.stderr).strip().splitlines() or ["it ended without a word"]
        if os.path.exists(f"{target}.part"):
            os.unlink(f"{target}.part")
        raise Refusal(f"{target}: mkvmerge says: {lines[-1]}")
    os.replace(f"{target}.part", target)
