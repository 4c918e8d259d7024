"""Links the object file that the toolchain makes of a proved program so that it runs with glibc 2.31 or later.

The toolchain itself links with the glibc that it brings, and the program then needs that of 2.34. Here the same object file is linked with the same archives of
the toolchain, by its own linker, to the functions of glibc in the versions that glibc 2.31 has: later ones keep them. The libraries that the linker reads for
that are made here of their names alone. scripts/portable.s has the start of the program.
"""
import pathlib
import shutil
import subprocess
import tempfile

HERE = pathlib.Path(__file__).resolve().parent

# The functions of glibc that the program may call, by the library that has them in glibc 2.31, and their versions on x86-64.
CALLED = {
    "libc.so.6": {
        "GLIBC_2.2.5": "__errno_location __libc_start_main __sysv_signal __write _exit abort close free malloc memmove memset open read realloc sysconf write",
        "GLIBC_2.3.4": "sched_getaffinity",
        "GLIBC_2.14": "memcpy",
    },
    "libpthread.so.0": {
        "GLIBC_2.2.5": "pthread_attr_destroy pthread_attr_init pthread_attr_setguardsize pthread_create pthread_detach pthread_join pthread_self",
    },
}


class NotLinked(Exception):
    """The toolchain isn't on the path, or its linker refused the object file."""


def kit():
    found = shutil.which("rt")
    if not found:
        raise NotLinked("the toolchain's command rt is not on PATH")
    return pathlib.Path(found).resolve().parent.parent


def run(*words):
    done = subprocess.run([str(it) for it in words], capture_output=True, text=True)
    if done.returncode:
        raise NotLinked((done.stderr or done.stdout).strip())


def as_built(object_file):
    """The program that the toolchain links of this object file, whole, with its symbol table."""
    at = kit()
    with tempfile.TemporaryDirectory() as folder:
        made = pathlib.Path(folder) / "program"
        run(at / "bin" / "rattle-link", "--target", "x86_64-unknown-linux-gnu", "--toolchain", at / "toolchain", "-o", made, object_file,
            at / "c" / "libos_c.a", at / "c" / "liblibc_c.a")
        return made.read_bytes()


def linked(object_file):
    """The program that is released of this object file, whole, with its symbol table."""
    at = kit()
    clang, linker = at / "toolchain" / "bin" / "clang", at / "toolchain" / "bin" / "ld.lld"
    with tempfile.TemporaryDirectory() as folder:
        room = pathlib.Path(folder)

        def assembled(source, name):
            run(clang, "--target=x86_64-unknown-linux-gnu", "-c", source, "-o", room / name)
            return room / name

        libraries = []
        for library, versions in CALLED.items():
            names = " ".join(versions.values()).split()
            text = "".join(f".globl {it}\n.type {it}, @function\n{it}:\n" for it in names)
            (room / f"{library}.s").write_text(f".text\n{text}.byte 0\n")
            (room / f"{library}.map").write_text("".join(f"{version} {{ {'; '.join(some.split())}; }};\n" for version, some in versions.items()))
            made = assembled(room / f"{library}.s", f"{library}.o")
            run(linker, "-shared", "-soname", library, f"--version-script={room / library}.map", made, "-o", room / library)
            libraries.append(room / library)
        start = assembled(HERE / "portable.s", "start.o")
        run(linker, "-pie", "--gc-sections", "--eh-frame-hdr", "--hash-style=gnu", "--build-id=none", "-z", "relro", "-z", "now", "-z", "noexecstack", "--threads=1",
            "-dynamic-linker", "/lib64/ld-linux-x86-64.so.2", start, object_file, at / "c" / "libos_c.a", at / "c" / "liblibc_c.a", *libraries,
            at / "toolchain" / "lib" / "libgcc.a", "-o", room / "program")
        return (room / "program").read_bytes()
