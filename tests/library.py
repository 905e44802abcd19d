"""The calls as the header declares them, and the shared library's functions by these declarations."""
import ctypes
import re
from pathlib import Path

ROOT = Path(__file__).resolve().parent.parent
# a type of the header, to ctypes and to Rust
TYPES = {
    "size_t": (ctypes.c_size_t, "usize"),
    "uint32_t": (ctypes.c_uint32, "u32"),
    "uint64_t": (ctypes.c_uint64, "u64"),
    "size_t *": (ctypes.POINTER(ctypes.c_size_t), "*mut usize"),
    "uint64_t *": (ctypes.POINTER(ctypes.c_uint64), "*mut u64"),
    "uint8_t *": (ctypes.c_char_p, "*mut u8"),
    "const size_t *": (ctypes.POINTER(ctypes.c_size_t), "*const usize"),
    "const uint64_t *": (ctypes.POINTER(ctypes.c_uint64), "*const u64"),
    "const uint8_t *": (ctypes.c_char_p, "*const u8"),
}


def header():
    return (ROOT / "include" / "taxolbin.h").read_text()


def declared():
    """Each call that the archive has to have: its name, and its parameters as pairs of a type and a name."""
    calls = re.findall(r"^TAXOLBIN_MUST_USE uint32_t (taxolbin_\w+)\(([^;{]*)\);", header(), re.M)
    return {name: [re.fullmatch(r"(.*?[ *])(\w+)", p.strip()).groups() for p in parameters.split(",")] for name, parameters in calls}


def load(path):
    """The shared library's calls, by their names without the prefix."""
    library, calls = ctypes.CDLL(path), {}
    for name, parameters in declared().items():
        call = getattr(library, name)
        call.restype = ctypes.c_uint32
        call.argtypes = [TYPES[kind.strip()][0] for kind, _ in parameters]
        calls[name.removeprefix("taxolbin_")] = call
    return type("Library", (), {name: staticmethod(call) for name, call in calls.items()})
