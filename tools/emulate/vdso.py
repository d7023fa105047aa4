"""getcpu without a call: the kernel maps code for it into each program (vdso(7)), which would tell this
machine's nodes. It is overwritten with the call, which emulate answers. Not proved."""

import struct

from .tracing import Failed, peek, poke

BASE_OF_CODE = 33  # AT_SYSINFO_EHDR, of the list that the kernel hands to a program
NAMES = (b"__vdso_getcpu", b"getcpu")
CALL = bytes.fromhex("b835010000" "0f05" "c3")  # mov $309, %eax; syscall; ret
TO_SYSCALL = 5  # bytes before that instruction
DYNAMIC_SYMBOLS, SYMBOL, SECTION = 11, struct.Struct("<IBBHQQ"), struct.Struct("<IIQQQQIIQQ")

places = {}  # by the image's bytes, where in it the code is


def make_getcpu_a_call(task):
    """Where the program's getcpu is, which is a call from now on: one place, or none; None where that isn't
    known. It has just been loaded."""
    try:
        base = base_of(task)
        if not base:
            return []
        image = peek(task, base, 4096)
        if image not in places:
            places[image] = place_of(task, base)
        for place in places[image]:
            poke(task, base + place, CALL)
        return [base + place for place in places[image]]
    except (Failed, OSError, struct.error, IndexError):
        return None


def base_of(task):
    with open(f"/proc/{task}/auxv", "rb") as file:
        return dict(struct.iter_unpack("2Q", file.read())).get(BASE_OF_CODE)


def place_of(task, base):
    """Where getcpu is, by the table of names: one place, or none."""
    header = struct.unpack("<16sHHIQQQIHHHHHH", peek(task, base, 64))
    start, size, count = header[6], header[11], header[12]
    sections = [SECTION.unpack(peek(task, base + start + size * k, SECTION.size)) for k in range(count)]
    table = next(section for section in sections if section[1] == DYNAMIC_SYMBOLS)
    names = peek(task, base + sections[table[6]][4], sections[table[6]][5])
    return {value for name, _, _, _, value, _ in SYMBOL.iter_unpack(peek(task, base + table[4], table[5]))
            if value and names[name:].split(b"\0")[0] in NAMES}
