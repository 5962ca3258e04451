"""The shared library: the one that was packed with this package, that of the repository, or that of the folder COVRITH_LIB."""

from __future__ import annotations

import ctypes
import functools
import os
import pathlib
from typing import Any, Dict, List, Optional, Tuple

from .names import Refusal, Refused

_IN = ctypes.c_char_p  # lent bytes, never None
_OUT = ctypes.POINTER(ctypes.c_uint8)
_OUT32 = ctypes.POINTER(ctypes.c_uint32)
_OUT64 = ctypes.POINTER(ctypes.c_uint64)
_IN32 = ctypes.POINTER(ctypes.c_uint32)
_DOUBLES = ctypes.POINTER(ctypes.c_double)
_LENGTH = ctypes.c_size_t
_NUMBER = ctypes.c_uint64
_ANSWER = ctypes.c_uint32

# The functions of include/covrith.h: what they answer and what they take. A new function is a new line.
_FUNCTIONS: Dict[str, Tuple[Any, List[Any]]] = {
    "covrith_run": (None, [_IN, _LENGTH, _IN, _LENGTH, _NUMBER, _OUT32, _LENGTH, _OUT, _LENGTH, _OUT, _LENGTH, _OUT64]),
    "covrith_read_record": (_ANSWER, [_IN, _LENGTH, _LENGTH, _OUT64]),
    "covrith_write_record": (_ANSWER, [_OUT, _LENGTH, _NUMBER, _NUMBER, _NUMBER, _NUMBER, _OUT64]),
    "covrith_count": (_NUMBER, [_IN, _LENGTH]),
    "covrith_stream_start": (_ANSWER, [ctypes.c_uint32, _OUT32]),
    "covrith_stream_step": (ctypes.c_uint32, [ctypes.c_uint32]),
    "covrith_make_tape": (_ANSWER, [ctypes.c_uint32, _IN32, _LENGTH, _DOUBLES, _LENGTH, _OUT, _LENGTH, _OUT64]),
    "covrith_join": (_ANSWER, [_IN, _LENGTH] * 4 + [_OUT, _LENGTH] * 2 + [_OUT64]),
    "covrith_columns": (_ANSWER, [_IN, _LENGTH, _OUT, _LENGTH, _OUT64]),
    "covrith_uncolumns": (_ANSWER, [_IN, _LENGTH, _OUT, _LENGTH, _OUT64]),
}


@functools.lru_cache(maxsize=None)
def load_library() -> ctypes.CDLL:
    """The shared library with its functions declared, loaded by the first call that needs it."""
    package = pathlib.Path(__file__).resolve().parent
    if os.environ.get("COVRITH_LIB"):
        path = pathlib.Path(os.environ["COVRITH_LIB"]) / "libcovrith.so"
    elif (package / "libcovrith.so").exists():
        path = package / "libcovrith.so"
    else:
        path = package.parent.parent / "target/sharedlib/libcovrith.so"
    if not path.exists():
        raise FileNotFoundError(f"{path} is not there: run tools/sharedlib, or set COVRITH_LIB to its folder")
    library = ctypes.CDLL(str(path))
    for name, (answer, arguments) in _FUNCTIONS.items():
        function = getattr(library, name)
        function.restype = answer
        function.argtypes = arguments
    return library


def buffer(of: Any, length: int) -> Any:
    """Zeroed memory for this many, with an address even for none."""
    return (of * max(length, 1))()


def accepted(answer: int, position: Optional[int] = None) -> None:
    if answer:
        raise Refused(Refusal(answer), position)
