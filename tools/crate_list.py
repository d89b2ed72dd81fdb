"""The crates of a repository, as its crates.txt lists them: what each stands on, and its floor."""
import pathlib

TOP = pathlib.Path(__file__).resolve().parent.parent


def read_crates(top=TOP):
    """Each crate of crates.txt in its order, with the libraries that its line lists, also those of the toolchain."""
    crates = {}
    for line in (pathlib.Path(top) / "crates.txt").read_text(encoding="utf-8").splitlines():
        head, colon, libraries = line.partition("#")[0].partition(":")
        if colon and head.strip():
            crates[head.split()[0]] = libraries.split()
    return crates


def own_libraries(crates, name):
    """The crates of the repository that the line of this one lists."""
    return [library for library in crates[name] if library in crates]


def below(crates, name):
    """All crates of the repository that this one stands on, each behind those that it stands on itself."""
    found = []

    def walk(one, above):
        if one in above:
            raise ValueError(f"crates.txt: {one} stands on itself")
        for library in own_libraries(crates, one):
            if library not in found:
                walk(library, (*above, one))
                found.append(library)

    walk(name, ())
    return found


def floors(crates):
    """The floor of each crate: one more than the highest of those that it stands on, and 0 where there is none."""
    found = {}
    for name in crates:
        for one in [*below(crates, name), name]:
            found[one] = 1 + max((found[library] for library in own_libraries(crates, one)), default=-1)
    return found


def line_of(top, name):
    """The line of crates.txt that names this crate."""
    for line in (pathlib.Path(top) / "crates.txt").read_text(encoding="utf-8").splitlines():
        head, colon, _ = line.partition("#")[0].partition(":")
        if colon and head.split()[:1] == [name]:
            return line
    raise KeyError(name)
