"""Finds the units of a file whose offsets can't be trusted, and says what isn't a whole unit."""
import bisect
import re
from typing import NamedTuple

from .plain import decoder
from .units import AUXILIARY_DATA, END_OF_SEQUENCE, LENGTH, PICTURES, PREFIX, SEQUENCE_HEADER, number_at

# parse codes at which a unit is looked for: those of the profile, and those of pictures that it leaves out
REFUSED = {
    **dict.fromkeys(decoder.WITHOUT_ARITHMETIC_CODING, "a picture without arithmetic coding"),
    **dict.fromkeys((*decoder.LOW_DELAY, 0xE8, 0xEC), "a picture of VC-2, low delay or high quality"),
}
TAKEN = {SEQUENCE_HEADER, END_OF_SEQUENCE, decoder.PADDING, *AUXILIARY_DATA, *PICTURES}
LOOKED_AHEAD = 4


class Found(NamedTuple):
    """A whole unit; `filled` where its next offset was wrong or missing and is known otherwise."""

    place: int
    code: int
    payload: bytes
    filled: bool


class Lost(NamedTuple):
    """Bytes that are no whole unit, and why."""

    place: int
    length: int
    why: str


def parse_infos(data):
    """The places at which a unit may begin."""
    found = (match.start() for match in re.finditer(re.escape(PREFIX), data))
    return [at for at in found if at + LENGTH <= len(data) and (data[at + 4] in TAKEN or data[at + 4] in REFUSED)]


class Search:
    """The units of a file, one after another."""

    def __init__(self, data):
        self.data, self.places = data, parse_infos(data)

    def begins(self, place, previous=None):
        """Whether a unit begins there; `previous` is the length of the unit that says so.

        Then its prefix may be damaged, where its previous offset agrees, and its code may be any.
        """
        rest = self.data[place : place + LENGTH]
        if len(rest) < LENGTH:
            return previous is not None and place <= len(self.data) and PREFIX.startswith(rest[:4])
        if rest[:4] == PREFIX:
            return previous is not None or rest[4] in TAKEN or rest[4] in REFUSED
        return previous is not None and rest[4] in TAKEN and number_at(rest, 9) == previous

    def end_of(self, place):
        """Where the unit at this place ends, and whether its next offset says so; None where nobody knows."""
        length = number_at(self.data, place + 5)
        if self.data[place + 4] == END_OF_SEQUENCE:
            return place + LENGTH, True
        if length >= LENGTH and self.begins(place + length, length):
            return place + length, True
        first = bisect.bisect_right(self.places, place)
        following = self.places[first : first + LOOKED_AHEAD]
        for other in following:
            previous = number_at(self.data, other + 9)
            if previous == other - place:
                return other, False
            if previous == length >= LENGTH and place + length <= other:
                return place + length, True
        if length == 0:
            return (following[0] if following else len(self.data)), False
        return None

    def why_lost(self, place):
        if place + number_at(self.data, place + 5) > len(self.data):
            return "the file ends within it"
        return "its next offset leads nowhere, and the unit behind it doesn't say where it begins"

    def following(self, place):
        """The next place at which a unit may begin, or the file's end."""
        index = bisect.bisect_right(self.places, place)
        return self.places[index] if index < len(self.places) else len(self.data)

    def units(self):
        """Found and Lost in turn."""
        place, is_told = 0, False
        while place < len(self.data):
            is_unit = len(self.data) - place >= LENGTH and (is_told or self.begins(place))
            found = self.end_of(place) if is_unit else None
            if found is None:
                end = self.following(place)
                yield Lost(place, end - place, self.why_lost(place) if is_unit else "no unit begins there")
                is_told = False
            else:
                end, is_said = found
                yield Found(place, self.data[place + 4], self.data[place + LENGTH : end], not is_said)
                is_told = self.begins(end, end - place)
            place = end
