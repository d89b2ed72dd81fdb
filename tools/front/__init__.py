"""The front program `dirac`: opens clips and streams by name, and runs the proved program on them.

One module a subject: tables (`formats`), sequence headers, units, picture headers, y4m, Ogg, PNG; where bytes come from
(`sources`, `clips`) and who codes them (`program`); and one a command. What reads bits and the format's own tables is
that of the plain decoder and encoder in bench/reference (`plain`).
"""
