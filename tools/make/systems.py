"""Builds the library for other systems than Linux on x86-64: WebAssembly, Windows, and Linux on ARM.

The library is the calls of the crate rp_c, whose functions are proved as ever. Rattle's compiler lowers it to
one LLVM module for x86-64 (of any processor of that kind), and the toolchain folder that it is given here keeps that
module. Here its text gets the layout and the name of the other system, without the attributes that only Linux has, and
the kit's own clang compiles it. For ARM Rattle's compiler has a target of its own. No proof covers what is done here.
"""
import functools
import hashlib
import os
import re
import shutil
from concurrent.futures import ThreadPoolExecutor

from shared import TOP, Stopped, bytes_of, kit, loaded, ran, version

SOURCES = f"{TOP}/systems"
CRATE = f"{TOP}/crates/rp_c"
# Where that is kept whose making takes minutes, by the checksum of what it was made from.
KEPT = f"{TOP}/out/systems"
# The layout and the name of each system that the module's text is given, and the attributes that it has not.
LAYOUTS = {
    "wasm": ("e-m:e-p:64:64-p10:8:8-p20:8:8-i64:64-i128:128-n32:64-S128-ni:1:10:20", "wasm64-unknown-unknown"),
    "windows": ("e-m:w-p270:32:32-p271:32:32-p272:64:64-i64:64-i128:128-f80:128-n8:16:32:64-S128", "x86_64-pc-windows-gnu"),
}
DROPPED = re.compile(r' "(?:probe-stack|stack-probe-size|target-cpu)"="[^"]*"')
# How much the module's stack on WebAssembly holds, in bytes; the program needs 128 KB.
STACK = 1 << 20
WASM = ["-mcpu=lime1", "-mbulk-memory"]
# The compiler's functions on whole numbers of 128 bits, of the system's package.
BUILTINS = "/usr/lib/llvm-14/lib/clang/14.0.6/lib/wasi/libclang_rt.builtins-wasm64.a"
# What each build needs beside the kit: the command or file, and the package that has it.
NEEDS = {
    "web": {"gcc": "gcc", "wasm-opt": "binaryen", BUILTINS: "libclang-rt-14-dev-wasm64"},
    "windows": {
        "gcc": "gcc",
        "x86_64-w64-mingw32-gcc": "gcc-mingw-w64-x86-64",
        "x86_64-w64-mingw32-windres": "binutils-mingw-w64-x86-64",
    },
    "arm": {"aarch64-linux-gnu-gcc": "gcc-aarch64-linux-gnu", "aarch64-linux-gnu-strip": "binutils-aarch64-linux-gnu"},
}


CALL = "the functions of the library's calls, proved by rt ci as Rattle's compiler has them before any backend"
TRIED = "no proof covers the compiler for this system, the link and the code around the call; run by tools/check/systems"
# How a program for Linux is linked statically: for any address, bound at its start, its stack not run.
STATIC = ["-static-pie", "-s", "-Wl,--gc-sections,-z,relro,-z,now,-z,noexecstack,-z,noseparate-code"]
# How the program for ARM is linked of what stands beside it, under link/ in its archive.
ARM_PARTS = ["link/program.o", "link/posix.o", "link/heap.o", "link/librp_c.a"]
ARM_LINK = ["aarch64-linux-gnu-gcc", *STATIC, "-o", "rp", *ARM_PARTS]
FOR_WINDOWS = f"{CALL}; their LLVM module compiled for x86_64-pc-windows-gnu by the kit's clang; linked with systems/program.c and windows.c by mingw-w64's gcc; {TRIED} under Wine"
# The names beside rp by which its file is another command.
OTHER_NAMES = ("rp-wide", "rp-panel")
# What stands behind each file, for PROVED: what was proved, and by what it was compiled, linked and run.
ORIGINS = {
    "arm": {
        "rp": f"{CALL}; compiled for aarch64 by rattle build; linked statically with systems/program.c and posix.c by the system's gcc; {TRIED} under qemu: {' '.join(ARM_LINK)}",
        **{it: "what rp is linked from" for it in ARM_PARTS},
    },
    "windows": {
        "rp.exe": FOR_WINDOWS,
        **{f"{it}.exe": f"the same file as rp.exe, which answers as {it} under this name: {FOR_WINDOWS}" for it in OTHER_NAMES},
        "rp.dll": f"{CALL}; their LLVM module compiled as for rp.exe; linked as a library by mingw-w64's gcc; {TRIED} under Wine",
        "librp.dll.a": "what a program is linked with that takes rp.dll",
        "rp.h": "the call in C",
    },
    "web": {
        "rp.wasm": f"{CALL}; their LLVM module compiled for WebAssembly and linked by the kit's clang, its addresses made 32 bits by wasm-opt; {TRIED} in Node and browsers",
        "rp.js": "JavaScript around the module, for a page and for Node; no proof covers it; run by tools/check/systems",
        "rp.mjs": "the command for Node over rp.js; no proof covers it; run by tools/check/systems",
        "rp": "a script of the shell that starts rp.mjs by Node",
        **{f"{it}.mjs": f"the same file as rp.mjs, which answers as {it} under this name" for it in OTHER_NAMES},
        **{it: f"the same file as rp, which starts {it}.mjs" for it in OTHER_NAMES},
    },
    "c": {
        "rp.c": f"{CALL}, in the module rp.wasm of the release for the web; translated to C by wasm2c of WABT, which no proof covers, as none covers the C around the calls, your compiler and its link; run by tools/check/one-file",
        "rp.h": "the calls in C",
    },
}


def lacking(system):
    """Returns what a build lacks here: packages, or the library's crate."""
    if not os.path.isdir(CRATE):
        return ["the crate rp_c"]
    return sorted({package for it, package in NEEDS[system].items() if not (os.path.exists(it) if it.startswith("/") else shutil.which(it))})


@functools.lru_cache(maxsize=None)
def crate_words():
    """Returns rattle, and its words for the crate, as `rt` gives them. What a check of the crate kept is taken, as `rt lib` does."""
    rt = loaded(f"{kit()}/bin/rt")
    crate = rt.rtlib.Crate(CRATE, TOP, {})
    return rt.rtlib.RATTLE, [*crate.words(["--jobs", "1"], keeps=False), *rt.rtlib.KEPT]


def newest(folder):
    """Returns when a file of a folder was changed last, or 0 where there is none."""
    return max((os.stat(f"{at}/{it}").st_mtime_ns for at, _, names in os.walk(folder) for it in names), default=0)


def is_left_by_ci():
    """Returns whether one run of `rt ci` left all libraries below the crate, and no source of theirs changed since.

    What `rt lib` leaves of a library has a stamp beside it, and what `rt ci` leaves has none. `rt ci` gives back what lay here before
    it, so there may be some of each, which do not fit together.
    """
    for crate in crates_of_library():
        home = f"{TOP}/crates/{crate}"
        if home == CRATE:
            continue
        rlib = f"{home}/out/rlib/{crate}.rlib"
        if not os.path.isdir(rlib) or os.path.exists(f"{home}/out/rlib/stamp"):
            return False
        if max(newest(f"{home}/{part}") for part in ("src", "specs", "proofs")) > newest(rlib):
            return False
    return True


def library_is_at_hand():
    """Returns whether the C library can be made without proving its crates anew."""
    return os.path.exists(f"{CRATE}/out/librp_c.a") or is_left_by_ci()


def toolchain(room):
    """Makes a folder of the toolchain whose tools keep the LLVM module, and returns it with where that is kept."""
    real, kept, folder = f"{kit()}/toolchain", f"{room}/module.bc", f"{room}/toolchain"
    os.makedirs(f"{folder}/bin")
    os.symlink(f"{real}/lib", f"{folder}/lib")
    words = ["gcc", "-O1", f'-DREAL="{real}/bin"', f'-DKEPT="{kept}"', f"{SOURCES}/keep_module.c", "-o", f"{folder}/bin/clang"]
    ran(words, room)
    for it in os.listdir(f"{real}/bin"):
        if it == "rattle-x64":
            os.symlink(f"{real}/bin/{it}", f"{folder}/bin/{it}")
        elif it != "clang":
            shutil.copy(f"{folder}/bin/clang", f"{folder}/bin/{it}")
    return folder, kept


def crates_of_library():
    """Returns the lines of crates.txt of the library's crate and of those that it stands on, by their names."""
    with open(f"{TOP}/crates.txt", encoding="utf-8") as it:
        lines = [line.partition("#")[0].strip() for line in it]
    by_name = {line.partition(":")[0].split()[0]: line for line in lines if ":" in line}
    found, left = {}, [os.path.basename(CRATE)]
    while left:
        name = left.pop()
        if name in by_name and name not in found:
            found[name] = by_name[name]
            left += by_name[name].partition(":")[2].split()
    return found


def sources_sum():
    """Returns a checksum of all that a build of the library reads: its crates, their lines in crates.txt, and the kit."""
    found, crates = hashlib.sha256(), crates_of_library()
    for crate in sorted(crates):
        found.update(f"{crates[crate]}\n".encode())
        for at, folders, names in os.walk(f"{TOP}/crates/{crate}"):
            folders[:] = sorted(it for it in folders if it not in ("out", "must-fail", "planted", "data"))
            for name in sorted(it for it in names if it.endswith((".rt", ".antt"))):
                found.update(f"{os.path.relpath(at, TOP)}/{name}\0".encode() + bytes_of(f"{at}/{name}") + b"\0")
    for file in (f"{kit()}/KIT-ID", os.path.realpath(__file__)):
        if os.path.exists(file):
            found.update(bytes_of(file))
    return found.hexdigest()


def kept_build(name, room, make):
    """Gives a file of the room that takes minutes to make: the one that was kept of the same sources, or a new one."""
    kept = f"{KEPT}/{sources_sum()[:32]}-{name}"
    if os.path.exists(kept):
        shutil.copy(kept, f"{room}/{name}")
    else:
        make()
        os.makedirs(KEPT, exist_ok=True)
        shutil.copy(f"{room}/{name}", f"{kept}.{os.getpid()}")
        os.replace(f"{kept}.{os.getpid()}", kept)


def module_text(room):
    """Returns the LLVM module of the library as text, for a processor of any kind of x86-64."""
    if not os.path.exists(f"{room}/module.ll"):
        kept_build("module.ll", room, lambda: make_module(room))
    with open(f"{room}/module.ll", encoding="utf-8") as it:
        return it.read()


def make_module(room):
    """Makes the module's text in the room."""
    folder, kept = toolchain(room)
    if not is_left_by_ci():
        ran(["rt", "lib"], CRATE)
    rattle, words = crate_words()
    ran([rattle, "build", *words, "--cpu", "x86-64", "--toolchain", folder, "-o", f"{room}/librp_c.a"], CRATE)
    print_as_text = ["--target=x86_64-unknown-linux-gnu", "-S", "-emit-llvm", "-x", "ir", "-Xclang", "-disable-llvm-passes"]
    # Its first line has the name as it is given here.
    ran([f"{kit()}/toolchain/bin/clang", *print_as_text, os.path.basename(kept), "-o", "module.ll"], room)


def text_for(system, text):
    """Returns the module's text for another system."""
    layout, triple = LAYOUTS[system]
    text, layouts = re.subn(r'(?m)^target datalayout = ".*"$', f'target datalayout = "{layout}"', text)
    text, triples = re.subn(r'(?m)^target triple = ".*"$', f'target triple = "{triple}"', text)
    if (layouts, triples) != (1, 1):
        raise Stopped("the module does not name its layout and its system once each")
    intrinsics = sorted(set(re.findall(r"@llvm\.(?:x86|aarch64)\.[\w.]+", text)))
    if intrinsics:
        raise Stopped(f"the module calls {' '.join(intrinsics)}")
    return DROPPED.sub("", text)


def compile_one(system, source, made, room):
    """Compiles one source with the kit's clang: LLVM's text, or C."""
    flags = [f"--target={LAYOUTS[system][1]}", "-O3", "-c", "-ffunction-sections", "-fdata-sections", "-Wno-override-module"]
    flags += WASM if system == "wasm" else []
    language = ["-x", "ir"] if source.endswith(".ll") else ["-ffreestanding", "-Wall", "-Wextra", "-Werror"]
    ran([f"{kit()}/toolchain/bin/clang", *flags, *language, source, "-o", made], room)
    return made


def compiled(system, sources, room):
    """Compiles the module's text and further sources with the kit's clang, and returns the objects."""

    def make():
        with open(f"{room}/{system}.ll", "w", encoding="utf-8") as it:
            it.write(text_for(system, module_text(room)))
        compile_one(system, f"{room}/{system}.ll", f"{room}/{system}.o", room)

    if not os.path.exists(f"{room}/{system}.o"):
        kept_build(f"{system}.o", room, make)
    return [f"{room}/{system}.o", *(compile_one(system, f"{SOURCES}/{it}", f"{room}/{system}-{it}.o", room) for it in sources)]


def linked_wasm(objects, exports, made, room):
    """Links a WebAssembly module whose memory is an ordinary one: addresses of 64 bits are taken away."""
    if not os.path.exists(f"{room}/wasm-ld"):
        os.symlink(f"{kit()}/toolchain/bin/clang", f"{room}/wasm-ld")
    exported = [f"--export={it}" for it in exports]
    link = ["-mwasm64", "--no-entry", "--gc-sections", "--strip-all", "--stack-first", "-z", f"stack-size={STACK}", *exported]
    ran([f"{room}/wasm-ld", *link, *objects, BUILTINS, "-o", f"{made}64"], room)
    lowered = ["--enable-memory64", "--enable-bulk-memory", "--enable-sign-ext", "--enable-mutable-globals", "--memory64-lowering"]
    ran(["wasm-opt", *lowered, f"{made}64", "-o", made], room)
    return made


def web(room):
    """Returns the files of WebAssembly: the module, the JavaScript that a page and Node share, and the command for Node."""
    objects = compiled("wasm", ["heap.ll", "wasm_heap.c", "wasm_guard.c"], room)
    seen = ("rp_answer", "rp_answer_wide", "rp_files", "rp_panel", "rp_panel_files", "malloc", "free")
    module = linked_wasm(objects, seen, f"{room}/rp.wasm", room)
    commands = {it: source for name in ("rp", *OTHER_NAMES) for it, source in ((name, f"{SOURCES}/rp.sh"), (f"{name}.mjs", f"{SOURCES}/rp.mjs"))}
    return {"rp.wasm": module, "rp.js": f"{SOURCES}/rp.js", **commands}


def heap(room):
    """Returns a module of WebAssembly that has the heap alone."""
    objects = [compile_one("wasm", f"{SOURCES}/{it}", f"{room}/heap-{it}.o", room) for it in ("wasm_heap.c", "wasm_guard.c")]
    return linked_wasm(objects, ("malloc", "free", "realloc"), f"{room}/heap.wasm", room)


def wide(room):
    """Returns a module and a program of this system, each with the same digest of whole numbers of 128 bits."""
    objects = []
    for source in ("wide.c", "wasm_guard.c"):
        flags = [f"--target={LAYOUTS['wasm'][1]}", "-O3", "-c", *WASM, "-ffreestanding", "-Wall", "-Wextra", "-Werror"]
        ran([f"{kit()}/toolchain/bin/clang", *flags, f"{SOURCES}/{source}", "-o", f"{room}/{source}.o"], room)
        objects.append(f"{room}/{source}.o")
    ran(["gcc", "-O2", f"{SOURCES}/wide.c", f"{SOURCES}/wide_main.c", "-o", f"{room}/wide"], room)
    return linked_wasm(objects, ("wide_digest",), f"{room}/wide.wasm", room), f"{room}/wide"


def told_of(name, what, kind, room):
    """Compiles what Windows tells of a program (kind 1) or a library (2): its version, and what it is."""
    numbers = ",".join([*re.findall(r"\d+", version())[:3], "0"])
    words = {"NUMBERS": numbers, "TYPE": str(kind), "WHAT": what, "VERSION": version(), "NAME": name}
    with open(f"{SOURCES}/rp.rc", encoding="utf-8") as it:
        text = re.sub(r"@(\w+)@", lambda found: words[found[1]], it.read())
    with open(f"{room}/{name}.rc", "w", encoding="utf-8") as it:
        it.write(text)
    ran(["x86_64-w64-mingw32-windres", f"{name}.rc", f"{name}.res.o"], room)
    return f"{room}/{name}.res.o"


def windows(room):
    """Returns the program and the library for Windows, which need no other file, and the library's import library."""
    objects = compiled("windows", ["heap.ll"], room)
    gcc = ["x86_64-w64-mingw32-gcc", "-O2", "-std=c11", "-Wall", "-Wextra", "-Werror", "-static", "-s", "-Wl,--gc-sections,--no-insert-timestamp"]
    sources = [f"{SOURCES}/{it}" for it in ("program.c", "windows.c")]
    named = [f'-DRP_VERSION="{version()}"', f"{TOP}/library/version.c"]
    told = told_of("rp.exe", "revealed preference with proved verdicts", 1, room)
    ran([*gcc, *sources, *objects, told, "-lshell32", "-o", f"{room}/rp.exe"], room)
    others = [f"{it}.exe" for it in OTHER_NAMES]
    for it in others:
        shutil.copy(f"{room}/rp.exe", f"{room}/{it}")
    exported = [f"{SOURCES}/rp.def", f"-Wl,--out-implib,{room}/librp.dll.a"]
    told = told_of("rp.dll", "the library of rp, revealed preference with proved verdicts", 2, room)
    # Else its base is drawn from the name of its file, with the folder.
    ran([*gcc, "-shared", "-Wl,--disable-auto-image-base", *named, *objects, told, *exported, "-o", f"{room}/rp.dll"], room)
    return {it: f"{room}/{it}" for it in ("rp.exe", *others, "rp.dll", "librp.dll.a")} | {"rp.h": f"{TOP}/library/rp.h"}


def arm_library(room):
    """Makes the library for Linux on ARM in the room."""
    rattle, words = crate_words()
    built = ["--target", "aarch64-unknown-linux-gnu", "--toolchain", f"{kit()}/toolchain", "-o", f"{room}/arm.a"]
    if not os.path.exists(f"{room}/arm.a"):
        kept_build("arm.a", room, lambda: ran([rattle, "build", *words, *built], CRATE))


def prepare(wanted, room):
    """Makes at once what takes minutes of the builds that are wanted."""
    crate_words()
    makes = [module_text] if {"windows", "web"} & set(wanted) else []
    makes += [arm_library] if "arm" in wanted else []
    with ThreadPoolExecutor(2) as pool:
        for it in [pool.submit(make, room) for make in makes]:
            it.result()


def arm(room):
    """Returns the program for Linux on ARM, linked statically, and what it is linked from, so that anyone can do it again."""
    arm_library(room)
    os.makedirs(f"{room}/link", exist_ok=True)
    shutil.copy(f"{room}/arm.a", f"{room}/link/librp_c.a")
    gcc = ["aarch64-linux-gnu-gcc", "-O2", "-fPIE", "-std=c11", "-D_POSIX_C_SOURCE=200809L", "-Wall", "-Wextra", "-Werror"]
    for it in ("program", "posix", "heap"):
        ran([*gcc, "-c", f"{SOURCES}/{it}.c", "-o", f"link/{it}.o"], room)
    ran(ARM_LINK, room)
    return {it: f"{room}/{it}" for it in ("rp", *ARM_PARTS)}
