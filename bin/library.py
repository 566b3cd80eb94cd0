"""Makes libfarmap: libfarmap.a, libfarmap.so, farmap.h and farmap.pc, from the program farcalls and library/farmap.c.

The program's object file is linked in as it is. Only the names of the C functions that it calls are other ones (CALLS), so that
its pipes, its arguments and its threads are those of library/farmap.c. All other names are hidden, so that two such libraries may
be in one process.
"""
import os
import shutil
import subprocess
import tempfile
from pathlib import Path

from builds import Buildable, Missing, Program, folder_for_builds, folders, maker_of, place_of, slug
from sources import ROOT, Sources, of_program
from unproved import C_PARTS, COMPILING, OPTIMIZED, TARGET, Unbuilt, capture, run_well, without_watching

# The functions that the program calls, and those of library/farmap.c that it gets.
CALLS = {
    "main": "farmap_main", "_exit": "farmap_x_exit", "read": "farmap_x_read", "write": "farmap_x_write", "pwrite": "farmap_x_pwrite",
    "open": "farmap_x_open", "close": "farmap_x_close", "rattle_write_parts": "farmap_x_write_parts",
    "rattle_arg": "farmap_x_arg", "rattle_arg_count": "farmap_x_arg_count", "__sysv_signal": "farmap_x_signal",
    "pthread_create": "farmap_x_thread_create", "pthread_join": "farmap_x_thread_join",
    "pthread_detach": "farmap_x_thread_detach", "pthread_self": "farmap_x_thread_self",
}
# What the program may call of the C library. Another name needs a look at what it does to a host.
ALLOWED = """abort __errno_location __xpg_strerror_r free ftruncate getdents64 getentropy malloc memcpy memmove memset memcmp bcmp openat pread
pthread_attr_destroy pthread_attr_init pthread_attr_setguardsize pthread_attr_setstacksize realloc sched_yield syscall unlink
statx strlen writev clock_gettime _GLOBAL_OFFSET_TABLE_ __tls_get_addr nanosleep fcntl ioctl getenv environ""".split()
CFLAGS = "-std=gnu11 -O2 -g -fPIC -fvisibility=hidden -fno-strict-aliasing -Wall -Wextra -pthread".split()
# What is built, by its name in the build's folder.
PARTS = ["lib/libfarmap.a", "lib/libfarmap.so", "include/farmap.h", "lib/pkgconfig/farmap.pc"]


def version():
    return (ROOT / "VERSION").read_text().strip()


def make_object(kit, keeps_checks, out):
    """The program's object file, without proofs."""
    clang = kit / "toolchain/bin/clang"
    with tempfile.TemporaryDirectory() as made:
        work = Path(made).resolve()
        target = capture(kit, ROOT, "farcalls", work)
        printing = "--no-default-config -S -emit-llvm -Xclang -disable-llvm-passes -x ir captured.bc -o captured.ll".split()
        run_well([clang, f"--target={TARGET}", *printing], work)
        (work / "module.bc").write_text(without_watching((work / "captured.ll").read_text(), keeps_checks))
        run_well([clang, *target, f"--sysroot={kit}/toolchain", *COMPILING, *OPTIMIZED], work)
        shutil.copy(work / "module.o", out)


def undefined(path):
    """The names that an object file expects from others."""
    lines = subprocess.run(["nm", "-u", path], stdout=subprocess.PIPE, text=True, check=True).stdout.splitlines()
    return sorted({line.split()[-1] for line in lines if line.split()})


def link(kit, work, object_file, is_proved, handover):
    """One object file of the program and of library/farmap.c, in which only the names of farmap.h can be seen."""
    renames = [word for old, new in CALLS.items() for word in ("--redefine-sym", f"{old}={new}")]
    run_well(["objcopy", *renames, object_file, "program.o"], work)
    unknown = [it for it in undefined(work / "program.o") if it not in ALLOWED and not it.startswith(("farmap_", "rattle_"))]
    if unknown:
        raise Unbuilt(f"farcalls calls functions that bin/library.py doesn't know: {' '.join(unknown)}")
    how = [f"-DFARMAP_PROVED={int(is_proved)}", *(["-DFARMAP_ONLY_HANDSHAKE"] if handover == "handshake" else [])]
    run_well([os.environ.get("CC", "cc"), *CFLAGS, *how, "-c", ROOT / "library/farmap.c", "-o", "shim.o"], work)
    run_well(["ld", "-r", "-o", "all.o", "shim.o", "program.o", *(kit / it for it in C_PARTS)], work)
    names = [line.split("(")[0].split()[-1].lstrip("*") for line in
             (ROOT / "library/farmap.h").read_text().splitlines() if line.startswith("FARMAP_API ")]
    run_well(["objcopy", *(f"--keep-global-symbol={it}" for it in names), "all.o", "farmap.o"], work)
    return names


def write_parts(work, folder):
    """The archive, the shared library, the header and the file for pkg-config, in a folder."""
    for part in PARTS:
        (folder / part).parent.mkdir(parents=True, exist_ok=True)
    (folder / "lib/libfarmap.a").unlink(missing_ok=True)
    run_well(["ar", "rcsD", folder / "lib/libfarmap.a", "farmap.o"], work)
    linking = ["-shared", "-pthread", "-Wl,-soname,libfarmap.so.0", "-Wl,-z,relro,-z,now,-z,noexecstack,-z,nodelete"]
    run_well([os.environ.get("CC", "cc"), *linking, "-o", folder / "lib/libfarmap.so", "farmap.o"], work)
    soname = folder / "lib/libfarmap.so.0"
    soname.unlink(missing_ok=True)
    soname.symlink_to("libfarmap.so")
    shutil.copy(ROOT / "library/farmap.h", folder / "include/farmap.h")
    (folder / "lib/pkgconfig/farmap.pc").write_text(f"""prefix=${{pcfiledir}}/../..
libdir=${{prefix}}/lib
includedir=${{prefix}}/include

Name: farmap
Description: A concurrent map of byte strings that may be larger than its memory
Version: {version()}
Libs: -L${{libdir}} -lfarmap
Libs.private: -pthread
Cflags: -I${{includedir}}
""")


def make_library(kit, object_file, folder, is_proved, handover="switch"):
    """Makes the four files in the folder, from the program's object file."""
    with tempfile.TemporaryDirectory() as made:
        work = Path(made).resolve()
        link(kit, work, object_file, is_proved, handover)
        write_parts(work, folder)


class Library(Buildable):
    """The library's folder among the builds. Its name has the way to hand calls over that it was built with."""

    def __init__(self):
        handover = os.environ.get("FARMAP_HANDOVER", "switch")
        if handover not in ("switch", "handshake"):
            raise Unbuilt(f"FARMAP_HANDOVER is {handover}; it has to be switch or handshake")
        super().__init__("library", Sources([*of_program("farcalls").paths, "library/farmap.c", "library/farmap.h", "bin/library.py"]))
        self.handover, self.program = handover, Program("farcalls")
        self.kit, self.identity = self.program.kit, self.program.identity

    def find_folder(self, is_proved):
        beginning = f"library-{'proved' if is_proved else 'unproved'}-{self.handover}-{self.sum[:16]}-{slug(self.identity)}"
        for folder in folders():
            for found in sorted(folder.glob(f"{beginning}*")) if folder.is_dir() else []:
                if (found / PARTS[-1]).is_file() and not found.name.endswith(".part"):
                    return found
        return None

    def give(self):
        """The folder of the library, which is made first if there is none: from a proved program if that is there."""
        found = self.find_folder(True) or self.find_folder(False) or self.make_folder(False)
        if "-unproved-" in found.name:
            self.say("this library was not proved; bin/build --proved library proves it")
        return found

    def give_proved(self):
        return self.find_folder(True) or self.make_folder(True)

    def check(self):
        self.program.check()
        for tool in (os.environ.get("CC", "cc"), "ld", "ar", "nm", "objcopy"):
            if not shutil.which(tool):
                raise Missing(f"building it needs {tool} (Debian's packages gcc, libc6-dev and binutils)")

    def make_folder(self, is_proved):
        self.check()
        kind = "proved" if is_proved else "unproved"
        folder = folder_for_builds() / f"library-{kind}-{self.handover}-{self.sum[:16]}-{slug(self.identity)}"
        how = "proving and building it; from nothing this takes most of an hour" if is_proved else \
            "building it without proofs; this takes some minutes"
        self.say(how)
        part = folder.with_name(f"{folder.name}.{os.getpid()}.part")
        try:
            with self.telling_time():
                object_file = self.proved_object() if is_proved else self.unproved_object(folder.parent)
                make_library(self.kit, object_file, part, is_proved, self.handover)
            if self.sources.sum() != self.sum:
                raise Unbuilt("the sources changed meanwhile; start it again")
            if not folder.exists():
                part.rename(folder)
        finally:
            shutil.rmtree(part, ignore_errors=True)
        return folder

    def unproved_object(self, folder):
        """The program's object file, which is kept for the other way to hand calls over, and for changes of library/farmap.c."""
        # (as for programs: sources that nobody may have proved keep the checks that a proof makes needless)
        sources = self.program.sources
        checks = "-checked" if sources.why_unproved() else ""
        kept = folder / f"farcalls-object{checks}-{sources.sum()[:16]}-{slug(self.identity)}.o"
        if not kept.is_file():
            part = kept.with_name(f"{kept.name}.{os.getpid()}.part")
            make_object(self.kit, checks != "", part)
            part.rename(kept)
        return kept

    def proved_object(self):
        """The object file of which `rt run` has made the proved program."""
        with tempfile.TemporaryDirectory() as room:
            self.program.make_proved(Path(room) / "program")
        made = ROOT / "crates/farcalls/out/farcalls.o"
        if not made.is_file():
            raise Unbuilt(f"rt run left no {made}, of which the library is made")
        return made

    def version(self):
        found = self.find_folder(True) or self.find_folder(False)
        kind = "none yet" if found is None else f"{'not ' if '-unproved-' in found.name else ''}proved, {place_of(found)}"
        kit = self.identity or (maker_of(found) if found else "none in PATH")
        return f"version: {version()}\nbuild: {kind}\nkit: {kit}\nsources: {self.sum}"
