"""Tests of all Python of this repository: `python3 -m unittest` at its top.

Neither the toolchain nor ffmpeg is needed; with the proved program built, or named by DIRAC_TOOL, and with ffmpeg,
more is tried.
"""
