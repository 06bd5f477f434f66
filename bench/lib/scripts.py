"""Script lines and modules that the measuring scripts beside this file share."""
import base64
import importlib.machinery
import importlib.util
import os
import zlib

from leb128 import index, unsigned

ANYBODY = "2vxsx-fae"
# provisional_create_canister_with_cycles with the amount 1,000,000,000,000
CREATE = f"call {ANYBODY} aaaaa-aa provisional_create_canister_with_cycles 4449444c026e7d6c01d8a38ca80d0001010180a094a58d1d\n"


def _install_line():
    path = os.path.join(os.path.dirname(__file__), "..", "..", "examples", "install-line")
    loader = importlib.machinery.SourceFileLoader("install_line", path)
    module = importlib.util.module_from_spec(importlib.util.spec_from_loader("install_line", loader))
    loader.exec_module(module)
    return module


def identity(number):
    """The principal of the canister with this number."""
    return number.to_bytes(8, "big") + b"\x01\x01"


def text(principal):
    checked = zlib.crc32(principal).to_bytes(4, "big") + principal
    letters = base64.b32encode(checked).decode().lower().rstrip("=")
    return "-".join(letters[at : at + 5] for at in range(0, len(letters), 5))


def install(number, module, mode="install"):
    argument = _install_line().install_argument(identity(number), mode, module, b"")
    return f"call {ANYBODY} aaaaa-aa install_code {argument.hex()}\n"


# ---- modules


def section(number, content):
    return bytes([number]) + unsigned(len(content)) + content


def sized(content):
    return unsigned(len(content)) + content


def constant(number):
    """A number that is not negative, on the stack."""
    return b"\x41" + index(number)


def initialised(words, pages, imports=()):
    """A module with so many pages of memory, the calls of `ic0` with these names and types (bytes), and an init of
    these words, whose type is the first."""
    types = [b"\x60\x00\x00"] + [kind for _, kind in imports]
    imported = b"".join(sized(b"ic0") + sized(name) + b"\x00" + unsigned(place + 1) for place, (name, _) in enumerate(imports))
    return b"\x00asm\x01\x00\x00\x00" + b"".join([
        section(1, unsigned(len(types)) + b"".join(types)),
        section(2, unsigned(len(imports)) + imported),
        section(3, b"\x01\x00"),
        section(5, b"\x01\x00" + unsigned(pages)),
        section(7, b"\x01" + sized(b"canister_init") + b"\x00" + unsigned(len(imports))),
        section(10, b"\x01" + sized(b"\x00" + words + b"\x0b")),
    ])


def filled(pages):
    """The memory is written whole."""
    return initialised(constant(0) + constant(90) + constant(65536 * pages) + b"\xfc\x0b\x00", pages)


def stable(pages):
    """The memory is written whole, and then the stable memory with it."""
    grow = constant(pages) + b"\x10\x00\x1a"
    write = constant(0) + constant(0) + constant(65536 * pages) + b"\x10\x01"
    fill = constant(0) + constant(90) + constant(65536 * pages) + b"\xfc\x0b\x00"
    imports = [(b"stable_grow", b"\x60\x01\x7f\x01\x7f"), (b"stable_write", b"\x60\x03\x7f\x7f\x7f\x00")]
    return initialised(fill + grow + write, pages, imports)


def endless():
    return initialised(b"\x03\x40\x0c\x00\x0b", 1)
