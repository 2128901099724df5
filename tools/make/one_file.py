#!/usr/bin/env python3
"""Makes the library as one C file, `rp.c`, of the module of WebAssembly that `tools/make/systems.py` builds.

usage: tools/make/one_file.py MODULE FOLDER      the files of the archive, but LICENSE, NOTICE and PROVED, of rp.wasm

`wasm2c` (WABT) translates the module's functions to C, one by one. Here they get the memory and the arithmetic that they
stand on (`systems/onefile/machine.h`) and the calls of `library/rp.h` over them (`systems/onefile/shim.c`), which follow
from that header alone. The same module gives the same bytes. No proof covers the translation.
"""
import hashlib
import os
import re
import shutil
import sys
import tempfile

sys.path[:0] = [os.path.dirname(os.path.dirname(os.path.realpath(__file__)))]
from make import systems
from shared import TOP, Stopped, ran, text, version

SOURCES = f"{TOP}/systems/onefile"
HEADER = f"{TOP}/library/rp.h"
# How many parts the functions are in, so that a few compilers work side by side.
PARTS = 8
HEAD = """/*
 * rp.c - revealed preference with proved verdicts: the library of rp {version} as one C file. Its calls are told in rp.h.
 *
 *   cc -O1 -c rp.c                    compiles it; the Makefile does so in parts, side by side
 *
 * Made by tools/make/one_file.py, not to be edited: the module rp.wasm of the release, of SHA-256
 * {sum_}, translated to C by wasm2c of WABT
 * {wabt}. The functions of the module are those that Rattle's checker proved; no proof covers the translation and the code
 * around it. rp is under the MIT License or the Apache License 2.0, at your choice; NOTICE names the works inside.
 */
"""
FORM = re.compile(r"static (u32|u64|void) w2c_(\w+)\(Z_rp_instance_t\*([^)]*)\);")


def lacking():
    """Returns the packages that this machine lacks."""
    return sorted({*systems.lacking("web"), *([] if shutil.which("wasm2c") else ["wabt"])})


def calls():
    """Returns the calls of rp.h: of each its name, and its parameters as types and names."""
    plain = re.sub(r"/\*.*?\*/", " ", text(HEADER), flags=re.S)
    found = []
    for name, inside in re.findall(r"\bint32_t (\w+)\(([^)]*)\);", plain):
        found.append((name, [re.fullmatch(r"(.*?)(\w+)", re.sub(r"\s+", " ", it).strip()).groups() for it in inside.split(",")]))
    if not found:
        raise Stopped("library/rp.h declares no call")
    return found


def probe(room):
    """Returns the file of a small module that asks what the translated functions stand on, and that module."""
    objects = [
        systems.compile_one("wasm", f"{systems.SOURCES}/{it}", f"{room}/{os.path.basename(it)}.o", room)
        for it in ("onefile/probe.c", "wasm_heap.c", "wasm_guard.c")
    ]
    module = systems.linked_wasm(objects, ("rp_answer", "malloc", "free"), f"{room}/probe.wasm", room)
    return file_of(module, room, "none", [it for it in calls() if it[0] == "rp_answer"]), module


def arguments_of(name, parameters):
    """Returns the lines of a call's arguments, how many numbers the module takes for them, and which one takes lines."""
    kinds = {"const uint8_t *": "BYTES", "const uint64_t *": "NUMBERS", "uint8_t *": "ROOM", "uint64_t *": "LENGTH"}
    taken, at = [], 0
    while at < len(parameters):
        kind = kinds.get(parameters[at][0])
        with_count = kind in ("BYTES", "NUMBERS", "ROOM")
        if not kind or (with_count and parameters[at + 1 : at + 2] and parameters[at + 1][0] != "size_t "):
            raise Stopped(f"rp.h: the parameter {parameters[at][1]} of {name} is of no kind that is known")
        taken.append((kind, parameters[at][1], parameters[at + 1][1] if with_count else "1"))
        at += 1 + with_count
    names = [it for _, it, _ in taken]
    lines = []
    for kind, it, count in taken:
        if kind == "ROOM" and f"{it}_length" not in names:
            raise Stopped(f"rp.h: {name} has no {it}_length for {it}")
        source, to = (it, "NULL") if kind in ("BYTES", "NUMBERS") else ("NULL", it)
        length = names.index(f"{it}_length") if kind == "ROOM" else -1
        lines.append(f"        {{{kind}, {source}, {to}, {count}, {length}, 0}},")
    return lines, sum(1 if kind == "LENGTH" else 2 for kind, _, _ in taken), names.index("told") if "told" in names else -1


def call(name, parameters):
    """Returns the C of one call."""
    lines, numbers, told = arguments_of(name, parameters)
    program = "rp-panel" if name == "rp_panel" else "rp"
    given = ", ".join(["instance", *(f"given[{it}]" for it in range(numbers))])
    declared = ", ".join(f"{kind}{it}" for kind, it in parameters)
    return "\n".join(
        [
            f"static u32 call_{name}(Instance *instance, const u64 *given) {{",
            f"    return rp_w2c_{name}({given});",
            "}",
            "",
            f"int32_t {name}({declared}) {{",
            "    Argument list[] = {",
            *lines,
            "    };",
            f'    return asks(call_{name}, list, (int)(sizeof list / sizeof *list), {told}, "{program}: out of memory\\n");',
            "}",
            "",
        ]
    )


def translated(module, room):
    """Returns what wasm2c makes of the module: its header and its code."""
    ran(["wasm2c", module, "--module-name", "rp", "--output", "translated.c"], room)
    return text(f"{room}/translated.h"), text(f"{room}/translated.c")


def one(pattern, words, what):
    """Returns the one match of a pattern."""
    found = list(re.finditer(pattern, words))
    if len(found) != 1:
        raise Stopped(f"wasm2c wrote {len(found)} times {what}")
    return found[0]


class Translation:
    """What wasm2c wrote, taken apart; each line of it is of a kind that is known."""

    def __init__(self, header, code):
        self.instance = one(
            r"typedef struct Z_rp_instance_t \{\n(?:  \w+ w2c_\w+;\n)*  wasm_rt_memory_t w2c_memory;\n\} Z_rp_instance_t;", header, "the instance"
        )[0]
        code = code[one(r"(?m)^static bool s_module_initialized = false;$", code, "the begin of the module").start() :]
        code = code[: one(r"(?m)^/\* export: 'memory' \*/$", code, "the export of the memory").start()]
        self.functions = dict(re.findall(r"(?ms)^(static \w+ w2c_(?:\w+)\(Z_rp_instance_t\* instance\b[^{]*\) \{\n.*?^\}\n)()", code))
        self.bodies = list(self.functions)
        self.prototypes = [it[0] for it in FORM.finditer(code)]
        self.data = re.findall(r"(?m)^static const u8 data_segment_data_w2c_d\d+\[\] = \{\n(?:  [^}\n]*\n)*\};\n", code)
        self.globals = one(r"(?ms)^static void init_globals\(Z_rp_instance_t\* instance\) \{\n.*?^\}\n", code, "the globals")[0]
        memory = one(r"(?ms)^static void init_memories\(Z_rp_instance_t\* instance\) \{\n.*?^\}\n", code, "the memory")[0]
        self.pages = int(one(r"wasm_rt_allocate_memory\(&instance->w2c_memory, (\d+), \d+\);", memory, "the size of the memory")[1])
        self.loads = re.findall(r"LOAD_DATA\(instance->w2c_memory, (\d+)u, (data_segment_data_w2c_d\d+), (\d+)\);", memory)
        self.sees_all(code, memory)

    def sees_all(self, code, memory):
        """Stops where something is left that is not taken."""
        for it in [*self.bodies, *self.prototypes, *self.data, self.globals, memory]:
            code = code.replace(it, "", 1)
        code = re.sub(r"(?ms)^static void init_func_types\(void\) \{\n.*?^\}\n", "", code)
        code = re.sub(r"static void init_data_instances\(Z_rp_instance_t \*instance\) \{\n\}", "", code)
        code = re.sub(r"(?m)^static (bool s_module_initialized = false|u32 func_types\[\d+\]);$", "", code)
        lines = [it for it in code.splitlines() if it.strip()]
        if lines:
            raise Stopped(f"wasm2c wrote what is not known: {lines[0][:80]}")
        if len(self.bodies) != len(self.prototypes) or len(self.loads) != len(self.data) or len(memory.splitlines()) != 3 + len(self.loads):
            raise Stopped("wasm2c declared other functions or data than it wrote")
        if any("CALL_INDIRECT" in it or "wasm_rt_" in it.replace("wasm_rt_grow_memory", "") for it in self.bodies):
            raise Stopped("the module has a table of functions, or calls what is not known")


def renamed(words):
    """Gives the functions names of their own, apart from all other libraries, and the instance's type its own."""
    words = re.sub(r"\bstatic (u32|u64|void) w2c_(\w+)\(Z_rp_instance_t\*", r"RP_FUNCTION \1 rp_w2c_\2(Instance *", words)
    words = re.sub(r"\bw2c_(\w+)\((instance\b|Z_rp_instance_t)", r"rp_w2c_\1(\2", words)
    words = re.sub(r"(?m)^  f64 (?=w2c_)", "  volatile f64 ", words)
    return words.replace("Z_rp_instance_t", "Instance")


def in_parts(bodies):
    """Returns the functions in parts of about the same length, in their order."""
    whole, parts, seen = sum(map(len, bodies)), [[] for _ in range(PARTS)], 0
    for it in bodies:
        parts[min(PARTS - 1, seen * PARTS // whole)].append(it)
        seen += len(it)
    return parts


def file_of(module, room, sum_, its_calls):
    """Returns the text of rp.c, with these calls of the module."""
    its = Translation(*translated(module, room))
    names = {it[0] for it in re.findall(r"w2c_(\w+)(\()", " ".join(its.prototypes))}
    for it in ("malloc", *(name for name, _ in its_calls)):
        if it not in names:
            raise Stopped(f"the module has no {it}")
    loads = [
        f"    CHECK(&instance->w2c_memory, {at}u, {count}u);\n    memcpy(instance->w2c_memory.data + {at}u, {name}, {count}u);\n"
        for at, name, count in its.loads
    ]
    parts = [f"#if RP_HAS({at})\n{renamed(''.join(f'{it}{chr(10)}' for it in part))}#endif\n" for at, part in enumerate(in_parts(its.bodies), 1)]
    return "\n".join(
        [
            HEAD.format(version=version(), sum_=sum_, wabt=wabt_version()),
            '#include "rp.h"\n',
            text(f"{SOURCES}/machine.h"),
            f"/* An instance: the module's own numbers, and its memory. */\n{its.instance.replace('Z_rp_instance_t', 'Instance')}\n",
            f"#define RP_PARTS {PARTS}\n#define FIRST_PAGES {its.pages}u\n#define RP_MALLOC rp_w2c_malloc\n",
            "\n".join(renamed(it) for it in its.prototypes) + "\n",
            *parts,
            "#if RP_HAS(0)\n",
            *its.data,
            renamed(its.globals),
            f"static void init_memory(Instance *instance) {{\n{''.join(loads)}}}\n",
            text(f"{SOURCES}/shim.c"),
            *(call(*it) for it in its_calls),
            f'const char *rp_version(void) {{ return "{version()}"; }}\n',
            "#endif",
            "",
        ]
    )


def wabt_version():
    """Returns the version of wasm2c."""
    return ran(["wasm2c", "--version"], TOP).strip()


def files(module, room):
    """Returns the files of the archive by their names, as texts: the C, the header, and how it is compiled."""
    with open(module, "rb") as it:
        sum_ = hashlib.sha256(it.read()).hexdigest()
    words = {"VERSION": version(), "PARTS": str(PARTS), "OBJECTS": " ".join(f"rp_{it}.o" for it in range(PARTS + 1))}
    put = lambda name: re.sub(r"@(\w+)@", lambda found: words[found[1]], text(f"{SOURCES}/{name}"))
    return {
        "rp.c": file_of(module, room, sum_, calls()),
        "rp.h": text(HEADER),
        "Makefile": put("Makefile.in"),
        "README.md": put("README.md.in"),
        "example.c": text(f"{TOP}/library/example.c"),
    }


def main(words):
    """Writes the files of a module into a folder."""
    module, folder = os.path.abspath(words[0]), os.path.abspath(words[1])
    os.makedirs(folder, exist_ok=True)
    with tempfile.TemporaryDirectory(prefix="rp-one-file-") as room:
        for name, it in files(module, room).items():
            with open(f"{folder}/{name}", "w", encoding="utf-8", newline="\n") as to:
                to.write(it)
    return 0


if __name__ == "__main__":
    sys.exit(main(sys.argv[1:]))
