"""Runs of the program on a stream, and the pictures that come out, fields woven to frames."""
import itertools

from .formats import BASE_FORMATS, BOTTOM_FIRST, PROGRESSIVE, TOP_FIRST
from .processes import pieces
from .program import refusal, start_decoder
from .refusal import Refusal
from .units import LONGEST_HEADER, Watcher

PLAIN_HELP = "decode by the plain decoder in Python, which needs no build: a second or so for a picture of 176 by 144"


class Decoding:
    """A run of the program on a stream, and the pictures that come out, each with the sequence that it belongs to."""

    def __init__(self, stream, is_plain=False):
        self.name, self.watcher = stream.name, Watcher()
        self.pipe = start_decoder(self._watched(stream), is_plain)

    def _watched(self, stream):
        for piece in pieces(stream):
            self.watcher.feed(piece)
            yield piece

    def _header_of(self, number):
        """The header of a picture's sequence, which was fed and so seen."""
        for sequence in self.watcher.sequences:
            if number < sequence.pictures:
                return sequence.header
            number -= sequence.pictures
        raise Refusal(f"{self.name}: a sequence header is longer than {LONGEST_HEADER} bytes")

    def pictures(self):
        """Raw pictures and their headers in turn; ends as the program does, and `finish` says how."""
        for number in itertools.count():
            first = self.pipe.read(1)
            if not first:
                return
            header = self._header_of(number)
            length = header.pictures().picture_length()
            picture = first + self.pipe.read(length - 1)
            if len(picture) < length:
                return
            yield picture, header

    def finish(self):
        """What the program says in the end, as a refusal, or None."""
        status, text = self.pipe.finish()
        return refusal(self.name, status, text)


def weave(fields, video):
    """A frame of two fields, the top one first."""
    frame = bytearray()
    for (width, height), *planes in zip(video.plane_sizes(), *(video.planes(field) for field in fields)):
        for place in range(0, width * height, width):
            for plane in planes:
                frame += plane[place : place + width]
    return bytes(frame)


def frames_of(pictures):
    """Frames and their headers, of pictures that may be fields; a field without its other one stands for both."""
    waiting = None
    for picture, header in pictures:
        if not header.has_fields:
            yield picture, header
        elif waiting is None:
            waiting = picture
        else:
            yield woven(waiting, picture, header), header
            waiting = None
    if waiting is not None:
        yield woven(waiting, waiting, header), header


def woven(first, second, header):
    is_top_first = BASE_FORMATS[header.base].is_top_first
    return weave((first, second) if is_top_first else (second, first), header.pictures())


def video_of(header, has_fields_apart):
    """What y4m says of the pictures or frames of a sequence."""
    if has_fields_apart:
        return header.pictures()._replace(scan=PROGRESSIVE)
    video = header.frames()
    if header.has_fields:
        video = video._replace(scan=TOP_FIRST if BASE_FORMATS[header.base].is_top_first else BOTTOM_FIRST)
    return video


def of_one_kind(pictures, has_fields_apart=False, takes_any=False):
    """What is known of the first picture, and all pictures.

    Where `takes_any` isn't set, a refusal comes in the place of a picture of another size, rate, range or aspect.
    """
    pictures = iter(pictures if has_fields_apart else frames_of(pictures))
    first = next(pictures, None)
    if first is None:
        return None, iter(())
    video = video_of(first[1], has_fields_apart)

    def same():
        for number, (picture, header) in enumerate(itertools.chain([first], pictures)):
            new = video_of(header, has_fields_apart)
            if new != video and not takes_any:
                size = f"{new.width} by {new.height}"
                raise Refusal(
                    f"the pictures change from number {number} on (size, rate, range or pixel aspect), to {size}:"
                    " `dirac cut --from` a point of that part makes a stream of it"
                )
            yield picture

    return video, same()
