"""What scripts/make-release, scripts/check-release and scripts/make-package share: the version, the released program, and how a program is compared with it.

The released program is release/gfan-x86_64-linux.gz. It is linked by scripts/portable.py of the object file that the toolchain makes, so that it runs with glibc
2.31 too. That file is release/gfan-x86_64-linux.o.gz: the toolchain doesn't keep it, and anyone can see that it is the one of a program, since the toolchain's
own linker makes the program of it byte for byte. Beside them, release/gfan-x86_64-linux.txt has a line `NAME VALUE` for each of

- `version`: that of the repository, as VERSION has it;
- `sources`: the sum of the sources that it is built from, as `scripts/sum-sources gfan_main` prints it;
- `kit`: the toolchain that proved and built it, as `rt version` prints it;
- `sha256`: the SHA-256 of the program, unpacked;
- `glibc`: the version of glibc from which on the program runs: 2.31 at least, the earliest that it is tried with.
"""
import gzip
import hashlib
import pathlib
import struct
import subprocess
import tempfile
import zlib

import portable

ROOT = pathlib.Path(__file__).resolve().parent.parent
PACKED = ROOT / "release" / "gfan-x86_64-linux.gz"
OBJECT = ROOT / "release" / "gfan-x86_64-linux.o.gz"
RECORD = ROOT / "release" / "gfan-x86_64-linux.txt"
NAMES = ("version", "sources", "kit", "sha256", "glibc")

# What a program has to answer to `_buchberger` on the input `Q[a]{a}`.
ASKED, ANSWER = b"Q[a]{a}", b"Q[a]\n{\na}\n"

# Of the ELF format: the size of a row of the table of segments, and types of segments and of entries of the table for the loader.
ROW, LOADED, FOR_LOADER = 56, 1, 2
TEXTS, NEEDS, NEED_COUNT = 5, 0x6FFFFFFE, 0x6FFFFFFF


# The earliest glibc that the released program is tried with.
TRIED = (2, 31)


class NoProgram(Exception):
    """A file that isn't a program for Linux on x86-64, or a release that can't be made or read."""


def version():
    return (ROOT / "VERSION").read_text().strip()


def sum_of_sources(checkout=ROOT):
    return subprocess.run([ROOT / "scripts" / "sum-sources", "--in", checkout, "gfan_main"], check=True, capture_output=True, text=True).stdout.strip()


def kit():
    """The toolchain on the path; None where there is none."""
    try:
        return subprocess.run(["rt", "version"], check=True, capture_output=True, text=True).stdout.strip()
    except (OSError, subprocess.CalledProcessError):
        return None


def sha256(data):
    return hashlib.sha256(data).hexdigest()


def answers(program):
    """Whether the program at this path answers as gfan does."""
    try:
        return subprocess.run([program, "_buchberger"], input=ASKED, capture_output=True, timeout=60).stdout == ANSWER
    except (OSError, subprocess.TimeoutExpired):
        return False


def segments(program):
    """The segments of a program: type, offset in the file, address in memory, size in the file."""
    if len(program) < 64 or program[:6] != b"\x7fELF\x02\x01" or struct.unpack_from("<H", program, 18)[0] != 62:
        raise NoProgram("no program for Linux on x86-64")
    start, = struct.unpack_from("<Q", program, 32)
    row, count = struct.unpack_from("<HH", program, 54)
    if row != ROW or start + row * count > len(program):
        raise NoProgram("a program whose table of segments can't be read")
    for at in range(start, start + row * count, row):
        kind, _, offset, address, _, size, _, _ = struct.unpack_from("<IIQQQQQQ", program, at)
        yield kind, offset, address, size


def stripped(program):
    """The program without what no run reads: whatever stands after the last byte of a segment, the symbol table among it, and the table of sections.

    It depends on the program alone, where what the command strip writes depends on its version too.
    """
    rows = list(segments(program))
    start, = struct.unpack_from("<Q", program, 32)
    end = max([64, start + ROW * len(rows), *(offset + size for _, offset, _, size in rows)])
    made = bytearray(program[:end])
    struct.pack_into("<Q", made, 40, 0)         # where the table of sections begins
    struct.pack_into("<HHH", made, 58, 64, 0, 0)   # the size of its rows, their number, and which of them has the names
    return bytes(made)


def object_of(file):
    """The object file of the built program in this file: FILE.o, or else the released one; None where there is neither."""
    beside = file.with_name(f"{file.name}.o")
    if beside.is_file():
        return beside.read_bytes()
    try:
        return gzip.decompress(OBJECT.read_bytes()) if OBJECT.is_file() else None
    except (OSError, EOFError, zlib.error) as fault:
        raise NoProgram(f"release/{OBJECT.name} can't be unpacked: {fault}") from fault


def to_release(file, made):
    """What is released of the built program in this file, of which `made` is the object file: that, linked anew and stripped; where it is None, the program, stripped."""
    built = file.read_bytes()
    if made is None:
        return stripped(built)
    with tempfile.NamedTemporaryFile(suffix=".o") as at:
        at.write(made)
        at.flush()
        try:
            if portable.as_built(at.name) != built:
                raise NoProgram(f"the object file isn't that of {file}: the toolchain links another program of it")
            return stripped(portable.linked(at.name))
        except portable.NotLinked as fault:
            raise NoProgram(f"the object file of {file} can't be linked: {fault}") from fault


def glibc_of(program):
    """The version of glibc from which on the program runs: the latest of those whose functions it calls, or 2.31, the earliest that it is tried with."""
    rows = list(segments(program))

    def place(address):
        for kind, offset, begin, size in rows:
            if kind == LOADED and begin <= address < begin + size:
                return address - begin + offset
        raise NoProgram("a program whose table for the loader leads nowhere")

    found = {}
    for kind, offset, _, size in rows:
        if kind == FOR_LOADER:
            for at in range(offset, offset + size, 16):
                name, value = struct.unpack_from("<QQ", program, at)
                found.setdefault(name, value)
    if TEXTS not in found or NEEDS not in found:
        raise NoProgram("a program that needs no version of glibc")
    texts, at, latest = place(found[TEXTS]), place(found[NEEDS]), TRIED
    for _ in range(found.get(NEED_COUNT, 0)):
        _, count, _, first, after = struct.unpack_from("<HHIII", program, at)
        one = at + first
        for _ in range(count):
            _, _, _, name, following = struct.unpack_from("<IHHII", program, one)
            begin = texts + name
            text = program[begin:program.index(b"\0", begin)].decode()
            if text.startswith("GLIBC_2."):
                latest = max(latest, tuple(int(it) for it in text.removeprefix("GLIBC_").split(".")))
            one += following
        at += after
    return ".".join(map(str, latest))


def record():
    """The lines of the release's description by their names; None where there is no release."""
    if not PACKED.exists() and not RECORD.exists():
        return None
    if not PACKED.exists() or not RECORD.exists():
        raise NoProgram(f"only one of release/{PACKED.name} and release/{RECORD.name} is there")
    lines = [line.partition(" ") for line in RECORD.read_text().splitlines() if line and not line.startswith("#")]
    said = {name: value for name, _, value in lines}
    if len(lines) != len(said) or sorted(said) != sorted(NAMES):
        raise NoProgram(f"release/{RECORD.name} has to have each of these lines once: {', '.join(NAMES)}")
    return said


def program():
    """The released program, unpacked; it has the SHA-256 that is written beside it."""
    said = record()
    if said is None:
        raise NoProgram("there is no release")
    try:
        unpacked = gzip.decompress(PACKED.read_bytes())
    except (OSError, EOFError, zlib.error) as fault:
        raise NoProgram(f"release/{PACKED.name} can't be unpacked: {fault}") from fault
    if sha256(unpacked) != said["sha256"]:
        raise NoProgram(f"release/{PACKED.name} is corrupted: its program has the SHA-256 {sha256(unpacked)}, and {said['sha256']} is written beside it")
    return unpacked
