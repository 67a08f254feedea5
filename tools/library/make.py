"""Makes the library libstnu for C, C++, Python, Rust and Java, of the machine code of the program.

It takes the object file of the program that `./stnu` runs, proved or checked with the word given,
changes the names of what that calls of the system to those that library/stnu.c has, and links the
two. An object file that calls anything else, or keeps anything of its own, is refused. DIR
(out/library) gets include/, lib/ with lib/pkgconfig/, python/ with a wheel, and where there is a
JDK java/. Wants cc and binutils.

Status: 0; 1 where there is no library, which standard error tells; 2 where that is so since the
object file of the proved program is not kept, as after a `rt ci` that had proved it before:
tools/prove-and-build keeps it.
"""

import base64
import contextlib
import hashlib
import os
import re
import shutil
import subprocess
import sys
import tempfile
import zipfile
from pathlib import Path

from shared.making import (
    CHECKED,
    PROGRAM,
    PROVED,
    PROVED_OBJECT,
    Crates,
    NoKit,
    kit,
    ready_program,
    say,
    words_of_link,
)
from shared.places import ROOT, TOOLS

SOURCES = ROOT / "library"
CC = os.environ.get("CC", "cc")
FLAGS = ["-std=gnu11", "-O2", "-fPIC", "-fvisibility=hidden", "-Wall", "-Wextra", "-Wpedantic"]
# What the program calls of the system, and how the edge (library/stnu.c) names it.
NAMES = {
    "main": "stnu_program_main",
    "read": "stnu_program_read",
    "write": "stnu_program_write",
    "_exit": "stnu_program_exit",
    "__sysv_signal": "stnu_program_signal",
    "rattle_alloc": "stnu_program_alloc",
    "rattle_realloc": "stnu_program_realloc",
}
# The same by its own name: its words, which the edge gives, too.
ARGUMENTS = {"rattle_arg", "rattle_arg_count"}
# What it calls as ever: memory, threads, the environment, the files in which it reads how many
# processors there are, long division, and, of a proved one before it begins, what the processor
# can, with a line on standard error and an end where that is too little.
AS_EVER = set(
    """__divti3 __modti3 __udivti3 __umodti3 __write __x86_get_cpuid_feature_leaf abort bcmp close
    free lseek malloc memcmp memcpy memmove memset open pthread_attr_destroy pthread_attr_init
    pthread_attr_setguardsize pthread_attr_setstacksize pthread_create pthread_detach pthread_join
    pthread_self rattle_dealloc rattle_env rattle_env_at rattle_errno rattle_set_errno realloc
    sched_getaffinity sysconf""".split()
)
# The kit's C code, of which the library takes what is called.
FROM_KIT = ["libos_c.a", "liblibc_c.a"]
# Bytes of its own that the program may change: a checked one notes by one that a check failed, upon
# which it ends the process. A proved one has the same byte, and only reads it.
MOST_OF_ITS_OWN = 1


class NotMade(Exception):
    """There is no library, for this reason."""

    status = 1


class NotKept(NotMade):
    """There is no library, since the object file of the proved program is not there."""

    status = 2


def run(*words, **how):
    """What a command prints. Where it fails, that is the reason."""
    try:
        done = subprocess.run([*map(str, words)], stdin=subprocess.DEVNULL, capture_output=True, text=True, check=False, **how)
    except FileNotFoundError as missing:
        raise NotMade(f"there is no command {words[0]}") from missing
    if done.returncode:
        raise NotMade(f"{words[0]} failed: {done.stderr.strip()}")
    if words[0] == CC:
        sys.stderr.write(done.stderr)
    return done.stdout


def version():
    """The version that the header tells."""
    told = dict(re.findall(r"#define STNU_(MAJOR|MINOR) (\d+)", (SOURCES / "stnu.h").read_text(encoding="utf-8")))
    return f"{told['MAJOR']}.{told['MINOR']}"


def proved_object(work):
    """The object file of the proved program: linked once more, it gives the same bytes."""
    if not PROVED_OBJECT.is_file():
        raise NotKept("the object file of the proved program is not kept; tools/prove-and-build makes it")
    with contextlib.suppress(NotMade):
        run(*words_of_link(work / "linked"))
        if (work / "linked").read_bytes() == PROVED.read_bytes():
            return PROVED_OBJECT
    why = f"the proved program was not linked of {PROVED_OBJECT.name} beside it"
    raise NotKept(f"{why}: remove that, and tools/prove-and-build makes it")


def checked_object(work):
    """The object file of the checked program, compiled once more where it was not kept."""
    kept = CHECKED.with_suffix(".o")
    if kept.is_file():
        return kept
    say("the program is compiled once more, for its object file; a few minutes")
    run(TOOLS / "compile-checked", ROOT, PROGRAM, work / PROGRAM)
    return work / f"{PROGRAM}.o"


def symbols(file, *options):
    """The names of symbols of a file."""
    return {line.split()[0] for line in run("nm", "-P", *options, file).splitlines() if line and not line.endswith(":")}


def bytes_of_its_own(file):
    """How many bytes of an object file's own can change while it runs, those of its threads among
    them."""
    total = 0
    for line in run("readelf", "-SW", file).splitlines():
        words = line.partition("]")[2].split()
        match words:
            case [name, kind, _, _, size, _, flags, *_] if "W" in flags and kind in ("PROGBITS", "NOBITS"):
                # (what is written once, before the program begins, is read-only from then on)
                total += 0 if name.startswith(".data.rel.ro") else int(size, 16)
    return total


def known(file):
    """Refuses an object file of another form than this script knows."""
    strange = symbols(file, "-u") - NAMES.keys() - ARGUMENTS - AS_EVER
    if strange:
        raise NotMade(f"the program calls what the library does not know: {' '.join(sorted(strange))}")
    if "main" not in symbols(file, "-g", "--defined-only"):
        raise NotMade("the object file has no main")
    own = bytes_of_its_own(file)
    if own > MOST_OF_ITS_OWN:
        raise NotMade(f"the program keeps {own} bytes of its own, which runs would share")


def objects(given, made, work):
    """The object files of the library: the program with the names changed, the edge, and the kit's
    C code."""
    changed = [f"--redefine-sym={old}={new}" for old, new in NAMES.items()]
    run("objcopy", *changed, given, work / "named.o")
    run("objcopy", f"--keep-global-symbol={NAMES['main']}", work / "named.o", work / "program.o")
    run(CC, *FLAGS, f'-DSTNU_MADE="{made}"', "-c", SOURCES / "stnu.c", "-o", work / "stnu.o")
    return [work / "program.o", work / "stnu.o", *(kit() / "c" / archive for archive in FROM_KIT)]


def write_libraries(parts, lib, work):
    """Writes the shared library and the static one, with the names of the header alone to be
    seen."""
    public = sorted(name for name in symbols(work / "stnu.o", "-g", "--defined-only") if re.match("stnu_(?!program_)", name))
    (work / "public").write_text("".join(f"{name}\n" for name in public), encoding="utf-8")
    (work / "map").write_text(f"STNU_1 {{ global: {'; '.join(public)}; local: *; }};\n", encoding="utf-8")
    shared, archive = lib / "libstnu.so.1", lib / "libstnu.a"
    guards = ["-Wl,-z,now,-z,relro,-z,noexecstack,-z,defs", "-Wl,--gc-sections", f"-Wl,--version-script={work / 'map'}"]
    run(CC, "-shared", "-o", shared, *parts, "-Wl,-soname,libstnu.so.1", *guards, "-pthread")
    (lib / "libstnu.so").unlink(missing_ok=True)
    (lib / "libstnu.so").symlink_to(shared.name)
    run("ld", "-r", "-o", work / "whole.o", *parts)
    run("objcopy", f"--keep-global-symbols={work / 'public'}", work / "whole.o", work / "libstnu.o")
    archive.unlink(missing_ok=True)
    run("ar", "rcsD", archive, work / "libstnu.o")
    return shared


def write_pkgconfig(lib):
    """Writes what pkg-config reads. The places follow from that of the file, so that the folder may
    stand anywhere."""
    (lib / "pkgconfig").mkdir(exist_ok=True)
    lines = [
        "prefix=${pcfiledir}/../..",
        "Name: stnu",
        "Description: Simple temporal networks with uncertainty: decided, certified, judged and executed",
        f"Version: {version()}",
        "Cflags: -I${prefix}/include",
        "Libs: -L${prefix}/lib -lstnu",
        "Libs.private: -pthread",
    ]
    (lib / "pkgconfig" / "stnu.pc").write_text("".join(f"{line}\n" for line in lines), encoding="utf-8")


def platform(shared):
    """The platform tag of a wheel: the oldest C library that has what the shared library calls."""
    needed = re.findall(r"GLIBC_(\d+)\.(\d+)", run("readelf", "-VW", shared))
    major, minor = max((int(major), int(minor)) for major, minor in needed)
    return f"manylinux_{major}_{minor}_x86_64"


def write_wheel(python, tag):
    """Writes the module as a wheel, which is what pip installs. The same files give the same
    bytes."""
    name = f"stnu-{version()}"
    files = {f"stnu/{file.name}": file.read_bytes() for file in sorted((python / "stnu").iterdir()) if file.is_file()}
    about = ["Metadata-Version: 2.1", "Name: stnu", f"Version: {version()}", "Requires-Python: >=3.10"]
    about.append("Summary: Simple temporal networks with uncertainty: decided, certified, judged and executed")
    files[f"{name}.dist-info/METADATA"] = "".join(f"{line}\n" for line in about).encode()
    kinds = ["Wheel-Version: 1.0", "Generator: tools/library make", "Root-Is-Purelib: false", f"Tag: {tag}"]
    files[f"{name}.dist-info/WHEEL"] = "".join(f"{line}\n" for line in kinds).encode()
    record = ""
    for path, data in files.items():
        sum_of_data = base64.urlsafe_b64encode(hashlib.sha256(data).digest()).rstrip(b"=").decode()
        record += f"{path},sha256={sum_of_data},{len(data)}\n"
    files[f"{name}.dist-info/RECORD"] = f"{record}{name}.dist-info/RECORD,,\n".encode()
    for old in python.glob("stnu-*.whl"):
        old.unlink()
    wheel = python / f"{name}-{tag}.whl"
    with zipfile.ZipFile(wheel, "w") as packed:
        for path, data in files.items():
            packed.writestr(zipfile.ZipInfo(path), data, zipfile.ZIP_DEFLATED)
    return wheel


def write_python(python, shared):
    """Writes the Python module, with the library beside it, and its wheel."""
    shutil.rmtree(python / "stnu", ignore_errors=True)
    shutil.copytree(SOURCES / "stnu", python / "stnu", ignore=shutil.ignore_patterns("__pycache__", "*.so*"))
    shutil.copy(shared, python / "stnu")
    return write_wheel(python, f"py3-none-{platform(shared)}")


def write_java(java, out, work):
    """Writes the Java class and its library, where there is a JDK. Gives whether there is."""
    compiler = shutil.which("javac")
    home = compiler and Path(compiler).resolve().parent.parent
    if not home or not (home / "include" / "jni.h").is_file():
        return False
    java.mkdir(exist_ok=True)
    run(compiler, "-Xlint:all", "-d", work / "classes", *sorted((SOURCES / "java").rglob("*.java")))
    run(home / "bin" / "jar", "--create", "--file", java / "stnu.jar", "-C", work / "classes", ".")
    places = [f"-I{out / 'include'}", f"-I{home / 'include'}", f"-I{home / 'include' / 'linux'}"]
    parts = [SOURCES / "java" / "stnu_jni.c", out / "lib" / "libstnu.a"]
    guards = "-Wl,--exclude-libs,ALL,-z,now,-z,relro,-z,defs"
    run(CC, *FLAGS, *places, "-shared", "-o", java / "libstnu_jni.so", *parts, guards, "-pthread")
    return True


def make(which, out, work):
    """Makes the library of what `main` reaches in the proved or the checked program."""
    whole, given = (proved_object if which == "proved" else checked_object)(work), work / "reached.o"
    run("ld", "-r", "--gc-sections", "-e", "main", whole, "-o", given)
    known(given)
    crates = Crates()
    made = f"{which}, {(kit() / 'KIT-ID').read_text(encoding='utf-8').strip()}, sources {crates.sum_of(crates.all())[:16]}"
    lib = out / "lib"
    for folder in (out / "include", lib, out / "python"):
        folder.mkdir(parents=True, exist_ok=True)
    shared = write_libraries(objects(given, made, work), lib, work)
    shutil.copy(SOURCES / "stnu.h", out / "include")
    write_pkgconfig(lib)
    wheel = write_python(out / "python", shared)
    has_java = write_java(out / "java", out, work)
    java = f", {out / 'java' / 'stnu.jar'}" if has_java else "; there is no JDK, so there is no Java class"
    print(f"{shared} ({shared.stat().st_size:,} bytes; {made}), {wheel}{java}")


def words(parser):
    about = "which program (that which ./stnu runs)"
    parser.add_argument("which", nargs="?", choices=["proved", "checked"], help=about)
    about = "where it is written (out/library)"
    parser.add_argument("--out", type=Path, default=ROOT / "out" / "library", metavar="DIR", help=about)


def main(given):
    wanted = filter(None, [given.which])
    try:
        which = ready_program(wanted)
        if not which:
            raise NotMade(f"there is no {given.which or 'such'} program")
        with tempfile.TemporaryDirectory(prefix="stnu-library-") as work:
            make(which, given.out.resolve(), Path(work))
    except NotMade as why:
        say(why)
        return why.status
    except (NoKit, OSError) as why:
        say(why)
        return 1
    return 0
