"""LEB128 as the scripts beside this file write it."""


def _spelled(n, end):
    out = bytearray()
    while not 0 <= n < end:
        out.append(n & 0x7F | 0x80)
        n >>= 7
    return bytes(out) + bytes([n])


def unsigned(n):
    return _spelled(n, 0x80)


def index(n):
    """A number that is not negative, as a signed one."""
    return _spelled(n, 0x40)
