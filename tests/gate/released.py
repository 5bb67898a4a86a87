"""The released programs of release/, and which sources they were made of.

release/sources lists what they were proved and built from: the kit, and each crate below them with
the libraries that it names and the sums of its files. release/sums has the sum of each program. Both
are written by `make release` alone, and so are the packed programs beside them."""
import hashlib
import lzma
import os

from toolchain import RT, TOP, crates, read, version

FOLDER = f"{TOP}/release"
PROGRAMS = ["ingesterd", "ingestctl", "ingest1", "walcat", "walsplit"]


def sum_of(data):
    return hashlib.sha256(data).hexdigest()


def needed_by(names):
    """The crates of these programs with all below them, lowest first."""
    found = crates()
    return [it for it in found.values() if any(it in [*found[name].below, found[name]] for name in names)]


def sources_now():
    """What the programs of this checkout are built from, a line each. Without a toolchain the kit is the released one's."""
    kit = version() if RT else next((it for it in sources_released() if it.startswith("kit ")), "kit none")[4:]
    lines = [f"kit {kit}"]
    for crate in needed_by(PROGRAMS):
        lines.append(f"crate {crate.name}: {' '.join([it.name for it in crate.deps] + crate.of_kit)}")
        lines += [f"{sum_of(read(it))} {os.path.relpath(it, TOP)}" for it in crate.files]
    return lines


def lines_of(name):
    try:
        return read(f"{FOLDER}/{name}").decode().splitlines()
    except FileNotFoundError:
        return []


def sources_released():
    return lines_of("sources")


def number_released():
    """The number of the release, as release/sources begins with it."""
    return next((it[8:] for it in sources_released() if it.startswith("release ")), None)


def difference():
    """Why the released programs are not those of this checkout, in words; None where they are."""
    released = [it for it in sources_released() if not it.startswith("release ")]
    if not released:
        return "there is no release in this tree"
    now = sources_now()
    other = [it for it in now if it not in {*released}] or [it for it in released if it not in {*now}]
    if not other:
        return None if released == now else "the order of the crates is not that of the release"
    kind, _, rest = other[0].partition(" ")
    what = {"kit": f"the toolchain is {rest}", "crate": f"crate {rest.partition(':')[0]} stands on other libraries"}
    return f"{what.get(kind, f'{rest} differs')}, and was not so in release {number_released()}"


def sums_released():
    return {name: number for number, _, name in (it.partition("  ") for it in lines_of("sums"))}


def unpacked(name):
    """A released program. Ends the run where it isn't the one whose sum the release names."""
    try:
        program = lzma.decompress(read(f"{FOLDER}/{name}.xz"))
    except (OSError, lzma.LZMAError) as fault:
        raise SystemExit(f"release/{name}.xz can't be read: {fault}") from None
    if sum_of(program) != sums_released().get(name):
        raise SystemExit(f"release/{name}.xz is not the program whose sum stands in release/sums: get release/ anew")
    return program


def differing(built):
    """The released programs that are not what was built from the same sources, by the paths of what was built."""
    return [name for name, path in built.items() if unpacked(name) != read(path)]


def built_here():
    return {name: f"{TOP}/crates/{name}/out/{name}" for name in PROGRAMS}
