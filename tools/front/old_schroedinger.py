"""Streams of Schroedinger 1.0.0 to 1.0.7, which spell codeblock mode 1 in a way of their own.

They leave out the quantiser offset where a level has one codeblock. A stream says in auxiliary data which Schroedinger
wrote it. Where all levels have one codeblock, clearing the mode says the same; else the bands of such levels are coded
anew, with offsets of 0, by the plain coder of bench/reference.
"""
import re

from .pictures import reader_behind_blocks
from .plain import decoder, encoder

NAME = re.compile(rb"\x01Schroedinger 1\.0\.[0-7](?![0-9])")


def is_old(payload):
    """Whether auxiliary data names such an encoder."""
    return NAME.match(payload) is not None


def _transform_parameters(reader, sizes):
    return decoder.read_transform_parameters(reader, *sizes[0])


def _spell_parameters(writer, parameters, is_partitioned):
    writer.unsigned(parameters.wavelet).unsigned(parameters.depth).flag(is_partitioned)
    if is_partitioned:
        for across, down in parameters.codeblock_counts:
            writer.unsigned(across).unsigned(down)
        writer.unsigned(parameters.codeblock_mode)


def _recode_plane(reader, writer, parameters, width, height):
    """The bands of a plane, read by the old rule and written by the standard's."""
    bands = []
    for position in range(3 * parameters.depth + 1):
        level, orientation = decoder.subband_kind(position)
        size = [decoder.subband_length(length, parameters.depth, level) for length in (width, height)]
        parent = bands[position - 3] if level >= 2 else None
        counts = parameters.codeblock_counts[level]
        mode = 0 if counts == (1, 1) else 1
        bands.append(decoder.read_subband(reader, orientation, *size, counts, mode, parent))
        encoder.write_subband(writer, orientation, bands[-1], 1, parent)


def renewed(picture, video):
    """The picture as the standard spells it; None where it has no codeblock mode 1."""
    reader = reader_behind_blocks(picture, video.chroma)
    front = picture.rest[: reader.place()]
    writer = encoder.BitWriter()
    if picture.offsets:
        if reader.flag():
            return None
        writer.flag(0)
    sizes = video.plane_sizes()
    parameters = _transform_parameters(reader, sizes)
    if parameters.codeblock_mode == 0:
        return None
    if set(parameters.codeblock_counts) == {(1, 1)}:
        _spell_parameters(writer, parameters, False)
        reader.align()
        return picture._replace(rest=front + writer.payload() + picture.rest[reader.place() :])
    _spell_parameters(writer, parameters, True)
    for size in sizes:
        _recode_plane(reader, writer, parameters, *size)
    return picture._replace(rest=front + writer.payload())
