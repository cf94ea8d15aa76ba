"""The C library that this module calls: which file it is, whether it is the right one, its calls, and their faults."""

import ctypes
import os
from ctypes import POINTER, Structure, byref, c_char, c_char_p, c_size_t, c_uint32, c_uint64, c_void_p
from typing import Optional, Tuple

__all__ = ["DONE", "FORM", "NO_JSON", "REFUSED", "SHORT", "Fault", "file", "lib", "libc", "message_of"]

# The form of the texts: yamlcanon-form-1. Another form has another soname, and with it another version of each exported name.
FORM = 1
DONE, DIFFERENT, REFUSED, SHORT, NO_JSON = range(5)
# The interface that this module calls: YAMLCANON_VERSION of the header that it was written by, of which a library may have more.
_INTERFACE = 101
# The room that is enough for each message: YAMLCANON_MESSAGE.
_MESSAGE = 128
_TEXT_CALLS = ("canonical", "events", "json", "show")

libc = ctypes.CDLL(None)


class Fault(Structure):
    _fields_ = [
        ("number", c_uint32),
        ("side", c_uint32),
        ("place", c_uint64),
        ("first", c_uint64),
        ("second", c_uint64),
        ("name", c_char * 16),
    ]


class _Named(Structure):
    """Dl_info: the file of an address in a library, and the name that the address has there."""

    _fields_ = [("file", c_char_p), ("base", c_void_p), ("name", c_char_p), ("at", c_void_p)]


def _file_of(own: ctypes.CDLL, named: str) -> str:
    """The file that a library was loaded from; what it was named by, where the system does not tell."""
    found = _Named()
    if hasattr(libc, "dladdr") and libc.dladdr(ctypes.cast(own.yamlcanon_version, c_void_p), byref(found)) and found.file:
        return os.path.abspath(os.fsdecode(found.file))
    return os.path.abspath(named)


def _interface_of(own: ctypes.CDLL, named: str) -> int:
    """The version of a library's interface."""
    try:
        own.yamlcanon_version.restype = c_uint32
        own.yamlcanon_version.argtypes = []
    except AttributeError:
        raise ImportError(f"yamlcanon: {named} is not libyamlcanon: it has no yamlcanon_version") from None
    return int(own.yamlcanon_version())


def _form_of(own: ctypes.CDLL) -> int:
    own.yamlcanon_form.restype = c_uint32
    own.yamlcanon_form.argtypes = []
    return int(own.yamlcanon_form())


def _look_at(own: ctypes.CDLL, named: str) -> str:
    """The file of a library, if it has the interface and the form for which this module is written."""
    found = _interface_of(own, named)
    told, (major, minor) = _file_of(own, named), divmod(_INTERFACE, 100)
    if found // 100 != major or found < _INTERFACE:
        has = "%d.%d" % divmod(found, 100)
        raise ImportError(
            f"yamlcanon: {told} has version {has} of the interface, and this module needs {major}.{minor} or a later {major}.x"
        )
    form = _form_of(own)
    if form != FORM:
        raise ImportError(f"yamlcanon: {told} gives texts of form {form}, and this module needs a library of form {FORM}")
    return told


def _load() -> Tuple[ctypes.CDLL, str]:
    """The library, and the file that it was loaded from."""
    beside = os.path.join(os.path.dirname(__file__), "libyamlcanon.so.1")
    named = os.environ.get("YAMLCANON_LIBRARY") or (beside if os.path.exists(beside) else "libyamlcanon.so.1")
    own = ctypes.CDLL(named)
    told = _look_at(own, named)
    for call in (getattr(own, f"yamlcanon_{name}_within") for name in _TEXT_CALLS):
        call.restype = c_uint32
        call.argtypes = [c_void_p, c_size_t, c_void_p, c_size_t, POINTER(c_size_t), POINTER(Fault), c_size_t]
    own.yamlcanon_same_within.restype = c_uint32
    own.yamlcanon_same_within.argtypes = [c_void_p, c_size_t, c_void_p, c_size_t, POINTER(Fault), c_size_t]
    own.yamlcanon_diff_within.restype = c_uint32
    own.yamlcanon_diff_within.argtypes = [
        *(c_void_p, c_size_t, c_void_p, c_size_t, c_size_t),
        *(c_void_p, c_size_t, POINTER(c_size_t), POINTER(Fault), c_size_t),
    ]
    own.yamlcanon_sha256_within.restype = c_uint32
    own.yamlcanon_sha256_within.argtypes = [c_void_p, c_size_t, c_void_p, POINTER(Fault), c_size_t]
    own.yamlcanon_values_within.restype = c_uint32
    own.yamlcanon_values_within.argtypes = [c_void_p, c_size_t, c_void_p, c_void_p, POINTER(Fault), c_size_t]
    own.yamlcanon_message.restype = c_uint32
    own.yamlcanon_message.argtypes = [POINTER(Fault), c_void_p, c_size_t, POINTER(c_size_t)]
    own.yamlcanon_position_within.restype = c_uint32
    own.yamlcanon_position_within.argtypes = [c_void_p, c_size_t, POINTER(Fault), POINTER(c_size_t), POINTER(c_size_t), c_size_t]
    own.yamlcanon_json_position_within.restype = c_uint32
    own.yamlcanon_json_position_within.argtypes = [c_void_p, c_size_t, POINTER(c_size_t), POINTER(c_size_t), c_size_t]
    own.yamlcanon_release.restype = c_char_p
    own.yamlcanon_release.argtypes = []
    return own, told


lib, file = _load()


def message_of(number: int, place: int, first: int, second: int) -> Optional[str]:
    """The message of an error, as the programs print it; None if the library has no such error."""
    fault, room, length = Fault(number, 0, place, first, second), ctypes.create_string_buffer(_MESSAGE), c_size_t()
    if lib.yamlcanon_message(byref(fault), room, len(room), byref(length)) != DONE:
        return None
    return room.value.decode()
