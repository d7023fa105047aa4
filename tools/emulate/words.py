"""What users are told, and lists of numbers as texts. Not proved."""

import os
import sys

OWN_FAULT = 125  # the status where the command itself can't go on
RULES = ("document", "linux")
BY_KERNEL = RULES[1]  # which a machine has where nobody says otherwise: programs run on a kernel
KERNEL_ORDERS = "kernel:"  # before distances: the orders are those that a kernel makes of them


class Unfit(Exception):
    """What is asked for can't be done; the text is for the user."""


def tell(what):
    print(f"{os.path.basename(sys.argv[0])}: {what}", file=sys.stderr, flush=True)


def list_text(numbers):
    """Numbers as a list, as 0-2,5."""
    starts = sorted(number for number in numbers if number - 1 not in numbers)
    ends = sorted(number for number in numbers if number + 1 not in numbers)
    return ",".join(str(start) if start == end else f"{start}-{end}" for start, end in zip(starts, ends))


def mask_text(numbers, least=0):
    """Numbers as a mask of hexadecimal digits, in groups of 8, with a group for the number `least`."""
    groups = max(max(numbers, default=0), least) // 32 + 1
    digits = f"{sum(1 << number for number in set(numbers)):0{8 * groups}x}"
    return ",".join(digits[at:at + 8] for at in range(0, 8 * groups, 8))


def read_lines(path):
    """The lines of a file, with their numbers."""
    try:
        with open(path, encoding="utf-8", errors="replace") as file:
            return list(enumerate(file.read().splitlines(), 1))
    except OSError as fault:
        raise Unfit(f"{path}: {fault.strerror}") from fault
