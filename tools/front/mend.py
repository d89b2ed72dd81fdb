"""Makes of the units that are there a stream that `decode` takes, and says of each unit that it leaves out why."""
from typing import NamedTuple

from . import old_schroedinger, players
from .pictures import References, read_picture
from .plain import decoder
from .resync import REFUSED, TAKEN, Lost
from .sequence import read_header
from .units import AUXILIARY_DATA, END_OF_SEQUENCE, PICTURES, SEQUENCE_HEADER


class Unit(NamedTuple):
    """A unit of the stream in the making; `source` is the place that it came from, None where it was put in."""

    code: int
    payload: bytes
    source: int


class Report:
    """What was done: lines on units that were left out or lost, and how often each mending was done."""

    def __init__(self):
        self.lines, self.counts = [], {}

    def leave_out(self, index, place, what, why):
        self.lines.append(f"unit {index} at byte {place}: {what} left out: {why}")

    def count(self, what):
        self.counts[what] = self.counts.get(what, 0) + 1


def first_header(units):
    """The payload of the first sequence header that can be read, or None."""
    for unit in units:
        if unit.code == SEQUENCE_HEADER:
            try:
                read_header(unit.payload)
                return unit.payload
            except decoder.Fault:
                continue
    return None


def kind_text(code):
    if code in PICTURES:
        return "picture"
    if code == SEQUENCE_HEADER:
        return "sequence header"
    return REFUSED.get(code, f"unit of code {code:02X}")


class Mending:
    """Takes the units in turn. `header` is the payload of a header to begin with, `refused` what is to be left out."""

    def __init__(self, header, refused=(), is_old=False):
        self.header, self.refused, self.is_old = header, dict(refused), is_old
        self.video = None if header is None else read_header(header).pictures()
        self.units, self.report, self.index = [], Report(), -1
        self.is_open, self.references = False, References()

    def leave_out(self, unit, what, why):
        self.report.leave_out(self.index, unit.place, what, why)

    def put(self, code, payload=b"", source=None):
        self.units.append(Unit(code, payload, source))

    def take(self, unit):
        self.index += 1
        if isinstance(unit, Lost):
            self.leave_out(unit, f"{unit.length} bytes", unit.why)
            return
        if unit.place in self.refused:
            self.leave_out(unit, kind_text(unit.code), self.refused[unit.place])
            return
        if unit.filled:
            self.report.count("next offsets filled in")
        if unit.code == SEQUENCE_HEADER:
            self.take_header(unit)
        elif unit.code == END_OF_SEQUENCE:
            self.close(unit.place)
        elif unit.code in PICTURES:
            self.take_picture(unit)
        elif unit.code not in TAKEN:
            self.leave_out(unit, kind_text(unit.code), "not of the profile that this codec reads")
        elif unit.code in AUXILIARY_DATA and old_schroedinger.is_old(unit.payload):
            self.is_old = True
            self.leave_out(unit, "auxiliary data", "names a Schroedinger whose way of spelling is mended")
        else:
            self.put(unit.code, unit.payload, unit.place)

    def close(self, source=None):
        self.put(END_OF_SEQUENCE, source=source)
        self.is_open, self.references = False, References()

    def take_header(self, unit):
        try:
            header = read_header(unit.payload)
        except decoder.Fault as fault:
            self.leave_out(unit, "sequence header", f"{fault.cause}: its fields can't be taken")
            return
        if self.is_open and unit.payload != self.header:
            self.close()
            self.report.count("end units put before another sequence header")
        self.header, self.video = unit.payload, header.pictures()
        self.is_open = True
        self.put(SEQUENCE_HEADER, unit.payload, unit.place)

    def take_picture(self, unit):
        try:
            picture = read_picture(unit.code, unit.payload)
        except decoder.Fault as fault:
            self.leave_out(unit, "picture", f"{fault.cause}: it has no whole header")
            return
        what = f"picture {picture.number}"
        missing = [number for number in picture.references() if number not in self.references.listed]
        if missing:
            self.leave_out(unit, what, f"it refers to picture {missing[0]}, which isn't there")
            return
        if self.is_old:
            picture = self.renewed(picture, unit)
            if picture is None:
                return
        if not self.is_open:
            self.put(SEQUENCE_HEADER, self.header)
            self.is_open = True
            self.report.count("sequence headers put in front of pictures")
        self.references.take(picture)
        self.put(unit.code, picture.payload() if self.is_old else unit.payload, unit.place)

    def renewed(self, picture, unit):
        """The picture of an old Schroedinger in the standard's spelling; None where it can't be read."""
        try:
            new = old_schroedinger.renewed(picture, self.video)
        except decoder.Fault as fault:
            self.leave_out(unit, f"picture {picture.number}", f"{fault.cause}, by the old rule too")
            return None
        if new is None:
            return picture
        self.report.count("pictures of an old Schroedinger spelt by the standard")
        return new

    def finish(self):
        if self.is_open:
            self.close()
            self.report.count("end units put at the end")


def mend(found, header=None, refused=(), is_old=False):
    """The units of a whole stream and the report. `header` is the payload of one from elsewhere, or None."""
    header = header or first_header([unit for unit in found if not isinstance(unit, Lost)])
    mending = Mending(header, refused, is_old)
    if header is not None:
        for unit in found:
            mending.take(unit)
        mending.finish()
    return mending.units, mending.report


# For players


def sequences_of(units):
    """The units in runs, each up to an end unit."""
    run = []
    for unit in units:
        run.append(unit)
        if unit.code == END_OF_SEQUENCE:
            yield run
            run = []
    if run:
        yield run


def for_players(units, report):
    """The units as players show them right, as far as spelling can do that (see `players`)."""
    spelt = []
    for run in sequences_of(units):
        pictures, chroma = [], None
        for unit in run:
            if unit.code == SEQUENCE_HEADER and chroma is None:
                chroma = read_header(unit.payload).chroma
            if unit.code in PICTURES:
                pictures.append(_without_zero_flag(unit, chroma, report))
        retiring = players.with_retirement(pictures)
        for old, new in zip(pictures, retiring):
            if old.retire != new.retire:
                report.count("pictures retired that nothing refers to any more")
        payloads = iter([picture.payload() for picture in retiring])
        spelt += [unit._replace(payload=next(payloads)) if unit.code in PICTURES else unit for unit in run]
    return spelt


def _without_zero_flag(unit, chroma, report):
    picture = read_picture(unit.code, unit.payload)
    try:
        new = players.without_zero_flag(picture, chroma)
    except decoder.Fault as fault:
        report.lines.append(f"byte {unit.source}: picture {picture.number} stays as it is: {fault.cause}")
        return picture
    if new is None:
        return picture
    report.count("zero residuals spelt as bands of length 0")
    return new
