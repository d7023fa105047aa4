"""Which pages of a process are there: by the ioctl PAGEMAP_SCAN where the kernel has it (6.7 and later), else
from /proc/PID/pagemap. Only the former tells pages of zeros, which no policy placed. Not proved."""

import fcntl
import struct

from .tracing import PAGE, TOP

SCAN = 0xC0606610  # PAGEMAP_SCAN
IS_FILE, IS_THERE, IS_SWAPPED, IS_ZERO = 1 << 2, 1 << 3, 1 << 4, 1 << 5
ROOM = 512  # regions that one call may tell
CHUNK = 1 << 17  # pages that are looked at in one read


def scanned(file, start, end):
    """(start, end, kinds) of each run of pages that are there."""
    regions = bytearray(24 * ROOM)
    place = (bytearray_address(regions), ROOM)
    end = min(end, TOP - PAGE)  # (the last page is the kernel's, which refuses more)
    while start < end:
        request = bytearray(struct.pack("12Q", 96, 0, start, end, 0, *place, 0, 0, 0, IS_THERE | IS_SWAPPED,
                                        IS_FILE | IS_ZERO))
        count = fcntl.ioctl(file, SCAN, request)
        yield from struct.iter_unpack("3Q", bytes(regions[:24 * count]))
        start = struct.unpack("12Q", request)[4]


def runs_by_scan(file, start, end):
    """(first page, pages, whether they are of a file's cache) of each run, but for the page of zeros."""
    for first, after, kind in scanned(file, start, end):
        if not kind & IS_ZERO:
            yield first // PAGE, (after - first) // PAGE, bool(kind & IS_FILE)


def bytearray_address(data):
    import ctypes

    return ctypes.addressof(ctypes.c_char.from_buffer(data))


def runs_by_reading(file, start, end):
    """The same, by reading 8 bytes a page."""
    first, last = start // PAGE, end // PAGE
    while first < last:
        file.seek(first * 8)
        raw = file.read(min(CHUNK, last - first) * 8)
        if not raw:
            return
        kinds = raw[7::8]
        if any(kinds):
            yield from runs_of(kinds, first)
        first += len(kinds)


def runs_of(kinds, first):
    """Runs of like pages, by the highest byte of each."""
    begin = 0
    for place in range(1, len(kinds) + 1):
        if place == len(kinds) or (kinds[place] ^ kinds[begin]) & 0xE0:
            if kinds[begin] & 0xC0:
                yield first + begin, place - begin, bool(kinds[begin] & 0x20)
            begin = place


def number_of(entry):
    """The machine's own number of a page; 0 where only root is told."""
    return entry & (1 << 55) - 1 if entry >> 62 == 2 else 0


def is_own(entry):
    """Whether no other process has the page (on Linux 4.2 and later)."""
    return entry >> 56 & 1 == 1


def is_protected(entry):
    """Whether a write to the page is told by userfaultfd(2)."""
    return entry >> 57 & 1 == 1


class Pagemap:
    """Looks at the pages of a task's address space."""

    can_scan = True

    def __init__(self, task):
        self.file = open(f"/proc/{task}/pagemap", "rb", 0)

    def runs(self, start, end):
        return (runs_by_scan if Pagemap.can_scan else runs_by_reading)(self.file, start, end)

    def is_zeros(self, page):
        """Whether it is the page of zeros, which the kernel shows where private memory was read alone."""
        rows = scanned(self.file, page * PAGE, page * PAGE + PAGE) if Pagemap.can_scan else ()
        return any(kind & IS_ZERO for _, _, kind in rows)

    def zeros(self, start, end):
        """(start, end) of what of it was read alone, as far as the kernel tells."""
        rows = scanned(self.file, start, end) if Pagemap.can_scan else ()
        return [(low, high) for low, high, kind in rows if kind & IS_ZERO]

    def entries(self, pages):
        """(page, its 8 bytes) of each page, in rising order."""
        begin, rows = 0, sorted(pages)
        for place in range(1, len(rows) + 1):
            if place == len(rows) or rows[place] != rows[place - 1] + 1:
                self.file.seek(rows[begin] * 8)
                raw = self.file.read((place - begin) * 8)
                yield from zip(rows[begin:place], (entry for entry, in struct.iter_unpack("Q", raw)))
                begin = place

    def __enter__(self):
        return self

    def __exit__(self, *_):
        self.file.close()
