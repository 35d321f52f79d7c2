"""Builds the Amiga side, conform/, with Debian's compiler for m68k: a disk that boots, a command for AmigaOS, and plain object code."""
import dataclasses
import functools
import pathlib
import shutil
import struct
import subprocess
import tempfile

import tables

SOURCES = tables.TOP / "conform"
PACKAGES = "fs-uae binutils-m68k-linux-gnu gcc-m68k-linux-gnu xvfb libgl1-mesa-dri libgl1"
COMMON = ("main", "runs", "bodies", "calls", "memory", "rom", "trace")
FLAGS = (
    "-m68000 -Os -std=gnu11 -Wall -Wextra -ffreestanding -fno-pic -fno-pie -fomit-frame-pointer -fno-stack-protector "
    "-fno-tree-loop-distribute-patterns -fno-strict-aliasing -msoft-float --param=min-pagesize=0"
).split()
DISK, BOOT_BLOCK, SECTOR = 901120, 1024, 512
R_68K_32, WITHIN = 1, (4, 5, 6)  # a relocation that a loader makes, and those that hold wherever the program is


class Missing(Exception):
    """Something that Debian has is not installed, or a build failed."""


def run(*words, cwd):
    """Runs a tool, which has to say nothing."""
    try:
        said = subprocess.run(words, cwd=cwd, capture_output=True, text=True, check=False)
    except FileNotFoundError:
        raise Missing(f"{words[0]} is missing; as root: apt-get install -y --no-install-recommends {PACKAGES}") from None
    if said.returncode or said.stderr.strip():
        raise Missing(f"{' '.join(map(str, words))}: status {said.returncode}: {said.stderr.strip()}")


@dataclasses.dataclass(frozen=True)
class Image:
    """A program from address 0: its bytes, the bytes of memory that it takes, and the places that have addresses of its own."""

    code: bytes
    space: int
    relocations: list


def sections(elf):
    """The sections of an ELF file for m68k: (name, type, offset, size, info) each."""
    table, = struct.unpack_from(">I", elf, 32)
    size, count, names = struct.unpack_from(">HHH", elf, 46)
    rows = [struct.unpack_from(">10I", elf, table + size * index) for index in range(count)]
    start = rows[names][4]
    return [(elf[start + row[0] : elf.index(b"\0", start + row[0])].decode(), row[1], row[4], row[5], row[7]) for row in rows]


def image_of(elf):
    """The image of a linked ELF file that kept its relocations."""
    found = {name: (offset, size) for name, _, offset, size, _ in sections(elf)}
    offset, size = found[".text"]
    code = elf[offset : offset + size].ljust((size + 3) // 4 * 4, b"\0")
    relocations = []
    start, length = found.get(".rela.text", (0, 0))
    for at in range(start, start + length, 12):
        place, info, _ = struct.unpack_from(">IIi", elf, at)
        if info & 0xFF == R_68K_32:
            relocations.append(place)
        elif info & 0xFF not in WITHIN:
            raise Missing(f"a relocation of type {info & 0xFF}, which no loader here makes")
    return Image(code, len(code) + found.get(".bss", (0, 0))[1], relocations)


def objects(folder, names, assembly, sources):
    """Compiles files of C and of assembly."""
    for name in names:
        run("m68k-linux-gnu-gcc", *FLAGS, "-c", sources / f"{name}.c", "-o", f"{name}.o", cwd=folder)
    for name in assembly:
        run("m68k-linux-gnu-as", "-m68000", sources / f"{name}.S", "-o", f"{name}.o", cwd=folder)
    return [f"{name}.o" for name in (*assembly, *names)]


def linked(folder, way_in, sources=SOURCES):
    """The image of a way in: `boot` or `command`."""
    made = objects(folder, (way_in, *COMMON), ("start", "entries"), sources)
    flags = ("--emit-relocs", "-z", "noexecstack", "--no-warn-rwx-segments", "-T", sources / "link.ld")
    run("m68k-linux-gnu-ld", *flags, "-o", f"{way_in}.elf", *made, cwd=folder)
    return image_of((pathlib.Path(folder) / f"{way_in}.elf").read_bytes())


@functools.cache
def built(way_in):
    """The image of a way in, built once."""
    with tempfile.TemporaryDirectory(prefix="conform.") as folder:
        return linked(folder, way_in)


def plain_object(folder):
    """The program without a way in, as one file of object code."""
    made = objects(folder, COMMON, ("entries",), SOURCES)
    run("m68k-linux-gnu-ld", "-r", "-z", "noexecstack", "-o", "conform.o", *made, cwd=folder)
    return (pathlib.Path(folder) / "conform.o").read_bytes()


def padded(data, size=SECTOR):
    return data.ljust((len(data) + size - 1) // size * size, b"\0")


def boot_sum(block):
    """A boot block with its sum."""
    total = 0
    for word in struct.unpack(">256I", block[:4] + bytes(4) + block[8:]):
        total += word
        total = (total & 0xFFFFFFFF) + (total >> 32)
    return block[:4] + struct.pack(">I", ~total & 0xFFFFFFFF) + block[8:]


def disk(folder, image, runs):
    """A disk that boots and does the runs of a compiled file."""
    table = struct.pack(f">{len(image.relocations) + 1}I", len(image.relocations), *image.relocations)
    code, rest = padded(image.code), padded(table + runs)
    sizes = {"IMAGE": len(code), "SPACE": max(image.space, len(code)), "REST": len(rest), "RELOCATIONS": len(table)}
    defined = [word for name, value in sizes.items() for word in ("--defsym", f"{name}={value}")]
    run("m68k-linux-gnu-as", "-m68000", *defined, SOURCES / "boot.S", "-o", "block.o", cwd=folder)
    run("m68k-linux-gnu-objcopy", "-O", "binary", "-j", ".text", "block.o", "block.bin", cwd=folder)
    block = (pathlib.Path(folder) / "block.bin").read_bytes().ljust(BOOT_BLOCK, b"\0")
    whole = boot_sum(block) + code + rest
    if len(whole) > DISK:
        raise Missing(f"{len(runs)} bytes of compiled runs do not fit on a disk; compile fewer")
    return whole.ljust(DISK, b"\0")


def hunks(image):
    """A loadable file of AmigaOS: one hunk of code, with the memory that it takes, and its relocations."""
    words = [0x3F3, 0, 1, 0, 0, (image.space + 3) // 4, 0x3E9, len(image.code) // 4]
    end = [0x3EC, len(image.relocations), 0, *image.relocations, 0, 0x3F2]
    return struct.pack(f">{len(words)}I", *words) + image.code + struct.pack(f">{len(end)}I", *end)


def is_there():
    """Whether the compiler is there."""
    return all(map(shutil.which, ("m68k-linux-gnu-gcc", "m68k-linux-gnu-as", "m68k-linux-gnu-ld", "m68k-linux-gnu-objcopy")))
