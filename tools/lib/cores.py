"""Core files in ELF, as gdb and BFD expect them of Linux on riscv64: a note of registers for each hart, and memory as a segment."""

import struct

from lib.guest import FILE_HEADER, PROGRAM_HEADER
from lib.images import PAGE

# Of the file's header its type and machine; of program headers their types; of a note its type and its owner.
ET_CORE, EM_RISCV, PT_LOAD, PT_NOTE, NT_PRSTATUS, OWNER = 4, 243, 1, 4, 1, b"CORE\0"

# What may be done with memory: everything.
READ_WRITE_EXECUTE = 7

# elf_prstatus of riscv64: its size, and where in it signal, process and registers are. The registers are pc and x1 to x31.
PRSTATUS_SIZE, SIGNAL, PROCESS, REGISTERS = 376, 12, 32, 112

# Of each trap the signal with which Linux ends a program for it: SIGILL 4, SIGTRAP 5, SIGBUS 7, SIGSEGV 11.
SIGNALS = {0: 7, 1: 11, 2: 4, 3: 5, 4: 7, 5: 11, 6: 7, 7: 11}


def padded(data, size):
    """Bytes with zeros behind, up to a multiple of a size."""
    return data + bytes(-len(data) % size)


def status_of(hart, signal, pc, registers):
    """The status of a hart, from pc and all 32 registers, of which x0 has no place. gdb shows hart H as thread H + 1."""
    status = bytearray(PRSTATUS_SIZE)
    struct.pack_into("<H", status, SIGNAL, signal)
    struct.pack_into("<I", status, PROCESS, hart + 1)
    struct.pack_into("<32Q", status, REGISTERS, pc, *registers[1:])
    return bytes(status)


def note_of(content):
    """A note with the status of a hart."""
    return struct.pack("<III", len(OWNER), len(content), NT_PRSTATUS) + padded(OWNER, 4) + padded(content, 4)


def header_of(kind, flags, place, address, data, align):
    """A program header. Notes have no place in memory, so they take none of it."""
    room = len(data) if kind == PT_LOAD else 0
    return struct.pack("<IIQQQQQQ", kind, flags, place, address, 0, len(data), room, align)


def core(base, memory, harts, signal=0):
    """A core file: program memory from an address on, and of each hart pc and registers."""
    notes = b"".join(note_of(status_of(hart, signal, *values)) for hart, values in enumerate(harts))
    place = FILE_HEADER + 2 * PROGRAM_HEADER
    ident = b"\x7fELF" + bytes([2, 1, 1]) + bytes(9)
    sizes = FILE_HEADER, PROGRAM_HEADER, 2, 0, 0, 0
    start = ident + struct.pack("<HHIQQQIHHHHHH", ET_CORE, EM_RISCV, 1, 0, FILE_HEADER, 0, 0, *sizes)
    # Memory begins at a page of the file, as it does in memory.
    behind = len(padded(bytes(place + len(notes)), PAGE))
    start += header_of(PT_NOTE, 0, place, 0, notes, 4)
    start += header_of(PT_LOAD, READ_WRITE_EXECUTE, behind, base, memory, PAGE)
    return padded(start + notes, PAGE) + memory
