"""Makes every call of the shared library through ctypes: shared.py LIBRARY

tests/boundary.py compares the declarations with the proved code's."""

import ctypes
import mmap
import sys
import tempfile
from ctypes import POINTER, c_char_p, c_double, c_int64, c_size_t, c_uint8, c_uint64


def struct(*names, **more):
    fields = [(name, c_uint64) for name in names]
    return type("Struct", (ctypes.Structure,), {"_fields_": [*fields, *more.items()]})


Generator = struct("width", "multiplier", "increment", "seed")
Run = struct(generator=Generator, first=c_uint64, count=c_uint64)
Value = struct("refusal", "value")
OrbitReply = struct("refusal", "preperiod", "exponent", "period")
IndexReply = struct("refusal", "found", "index")
PlacesReply = struct("refusal", "found", "index", "recurs", "exponent")
GapReply = struct("refusal", "found", steps=c_int64)
RunReply = struct("refusal", run=Run)
LookupReply = struct("refusal", "line", "found", "position")
Part = struct("start", "length")
SummaryReply = struct("refusal", "line", "line_count", "total")
Mark = struct("set", "position")
Player = struct(run=Run, position=c_uint64, marks=Mark * 4)
Fix = struct(east=c_double, north=c_double)
FixReply = struct("refusal", fix=Fix)

# The result, and the parameters.
CALLS = {
    "np_element": (Value, Generator, c_uint64),
    "np_orbit": (OrbitReply, Generator),
    "np_index": (IndexReply, Generator, c_uint64),
    "np_index_places": (PlacesReply, Generator, c_uint64, c_uint64),
    "np_gap": (GapReply, Generator, c_uint64, c_uint64),
    "np_predecessor": (Value, Generator, c_uint64),
    "np_customary_multiplier": (Value, c_uint64),
    "np_variety": (Value, Run),
    "np_write_line": (Value, Run, POINTER(c_uint8), c_size_t),
    "np_read_line": (RunReply, c_char_p, c_size_t),
    "np_remake": (Value, Run, c_uint64, POINTER(c_uint64), c_size_t),
    "np_line": (Part, c_char_p, c_size_t, c_uint64),
    "np_lookup": (LookupReply, c_char_p, c_size_t, c_uint64),
    "np_summary": (SummaryReply, c_char_p, c_size_t),
    "np_player_open": (c_uint64, POINTER(Player), Run),
    "np_player_forward": (c_uint64, POINTER(Player), c_uint64),
    "np_player_back": (c_uint64, POINTER(Player), c_uint64),
    "np_player_mark": (c_uint64, POINTER(Player), c_uint64),
    "np_player_return": (c_uint64, POINTER(Player), c_uint64),
    "np_player_show": (Value, POINTER(Player)),
    "np_fix_at": (FixReply, Run, c_uint64),
    "np_lane": (RunReply, Run, c_uint64, c_uint64),
    "np_write_lane": (Value, Run, c_uint64, c_uint64, POINTER(c_uint8), c_size_t),
    "np_shared": (Value, Run, Run),
}


def numbers(value):
    """Those of a struct or an array, or the number itself."""
    if isinstance(value, ctypes.Structure):
        value = [getattr(value, name) for name, _ in value._fields_]
    elif not isinstance(value, ctypes.Array):
        return (value,)
    return tuple(number for part in value for number in numbers(part))


def try_calls(library):
    calls = set()

    def call(name, *arguments):
        """A reply of more than 16 bytes is also had in memory that is filled before: on x86-64 it is written where a
        pointer in front of the arguments says."""
        calls.add(name)
        result, *parameters = CALLS[name]
        reply = ctypes.CFUNCTYPE(result, *parameters)((name, library))(*arguments)
        size = ctypes.sizeof(result)
        if size > 16:
            filled = result.from_buffer_copy(b"\xa5" * size)
            ctypes.CFUNCTYPE(None, POINTER(result), *parameters)((name, library))(filled, *arguments)
            assert bytes(filled) == bytes(reply)
        return numbers(reply)

    g, narrow, prime = Generator(10, 371, 995, 73), Generator(4, 5, 3, 1), Generator(0, 16807, 0, 1)
    assert call("np_element", g, 1000) == (0, 985)
    assert call("np_element", prime, 2) == (0, 282475249)
    assert call("np_orbit", g) == (0, 0, 9, 0)
    assert call("np_orbit", prime) == (0, 0, 0, 2147483646)
    assert call("np_index", narrow, 6) == (0, 1, 15)
    assert call("np_index_places", g, 9, 985 % 512) == (0, 1, 232, 1, 8)
    assert call("np_gap", g, 49, 985) == (0, 1, -124)
    assert call("np_predecessor", narrow, 8) == (0, 1)
    assert call("np_customary_multiplier", 36) == (0, 30517578125)

    line, run = b"4,5,3,1,0,16\n", Run(narrow, 0, 16)
    buffer, values = (c_uint8 * 107)(), (c_uint64 * 3)()
    assert call("np_variety", run) == (0, 16)
    assert call("np_write_line", run, buffer, len(buffer)) == (0, len(line))
    assert bytes(buffer) == line.ljust(len(buffer), b"\0")
    assert call("np_read_line", line, len(line)) == (0, 4, 5, 3, 1, 0, 16)
    assert call("np_remake", Run(g, 100, 8), 0, values, len(values)) == (0, 3)
    assert list(values) == [49, 742, 821]

    archive = line + b"10,371,995,73,100,8\n"
    assert call("np_lookup", archive, len(archive), 49) == (0, 2, 1, 0)
    assert call("np_lookup", None, 0, 49) == (0, 0, 0, 0)
    assert call("np_summary", archive, len(archive)) == (0, 0, 2, 24)
    assert call("np_line", archive, len(archive), 2) == (13, 20)
    twice = archive * 2
    assert call("np_lookup", twice, len(twice), 49) == call("np_summary", twice, len(twice)) == (11, 3, 0, 0)
    assert call("np_line", twice, len(twice), 2) == (0, 0)

    def played(name, *arguments):
        """The answer, and then the whole record."""
        return *call(name, player, *arguments), *numbers(player)

    shown, unset = (10, 371, 995, 73, 100, 8), (0,) * 6
    player = Player(position=9, marks=(Mark * 4)(*[(1, 1)] * 4))
    before = numbers(player)
    assert played("np_player_show") == (4, 0, *before)
    assert played("np_player_open", Run(g, 100, 0)) == (5, *before)
    assert played("np_player_open", Run(g, 100, 8)) == (0, *shown, 0, *unset, 0, 0)
    assert played("np_player_forward", 2) == (0, *shown, 2, *unset, 0, 0)
    assert played("np_player_show") == (0, 821, *shown, 2, *unset, 0, 0)
    assert played("np_player_mark", 3) == (0, *shown, 2, *unset, 1, 2)
    assert played("np_player_mark", 2**32) == (13, *shown, 2, *unset, 1, 2)
    assert played("np_player_forward", 2**64 - 1) == (12, *shown, 2, *unset, 1, 2)
    assert played("np_player_back", 1) == (0, *shown, 1, *unset, 1, 2)
    assert played("np_player_back", 2) == (12, *shown, 1, *unset, 1, 2)
    assert played("np_player_return", 0) == (13, *shown, 1, *unset, 1, 2)
    assert played("np_player_return", 3) == (0, *shown, 2, *unset, 1, 2)

    def fix(*arguments):
        """As text, which tells -0.0 from 0.0."""
        return str(call("np_fix_at", *arguments))

    assert call("np_fix_at", Run(g, 100, 8), 1) == (0, 821 / 1024 - 0.5, 434 / 1024 - 0.5)
    assert fix(run, 0) == "(0, -0.4375, 0.0)"
    assert fix(Run(Generator(64, 0, 2047, 2**64 - 1), 0, 2), 0) == f"(0, {0.5 - 2**-53}, -0.5)"
    assert fix(Run(g, 100, 8), 4) == fix(Run(g, 100, 8), 2**63) == "(12, 0.0, 0.0)"
    assert fix(Run(prime, 0, 8), 0) == fix(Run(prime, 0, 8), 4) == "(14, 0.0, 0.0)"

    parted, none = Run(g, 100, 8), (0,) * 6
    assert call("np_lane", parted, 3, 0) == (0, 10, 1003, 439, 49, 0, 3)
    assert call("np_lane", parted, 3, 2) == (0, 10, 1003, 439, 821, 0, 2)
    assert call("np_lane", Run(Generator(64, 1, 1, 0), 0, 2**64 - 1), 16, 15) == (0, 64, 1, 16, 15, 0, 2**60 - 1)
    assert call("np_lane", parted, 3, 3) == call("np_lane", parted, 3, 2**32) == (15, *none)
    assert call("np_lane", parted, 9, 0) == call("np_lane", parted, 2**32 + 3, 0) == (15, *none)
    assert call("np_lane", Run(prime, 0, 8), 3, 0) == (15, *none)
    assert call("np_lane", Run(g, 100, 0), 3, 3) == (5, *none)
    lane, unwritten = b"10,1003,439,742,0,3\n", b"\xa5" * 107
    buffer = (c_uint8 * 107)(*unwritten)
    assert call("np_write_lane", parted, 3, 3, buffer, len(buffer)) == (15, 0)
    assert call("np_write_lane", parted, 3, 3, None, 0) == (15, 0)
    assert call("np_write_lane", parted, 3, 1, buffer, len(lane) - 1) == (8, 0)
    assert bytes(buffer) == unwritten
    assert call("np_write_lane", parted, 3, 1, buffer, len(buffer)) == (0, len(lane))
    assert bytes(buffer) == lane.ljust(len(buffer), b"\xa5")

    ours, later = parted, Run(Generator(10, 371, 995, 821), 0, 4)
    assert call("np_shared", ours, later) == call("np_shared", later, ours) == (0, 4)
    assert call("np_shared", ours, Run(Generator(10, 371, 995, 1002), 0, 506)) == (0, 2)
    assert call("np_shared", ours, Run(Generator(10, 371, 995, 75), 0, 512)) == (0, 0)
    assert call("np_shared", Run(g, 100, 2**63), Run(g, 2**63, 2**32)) == (0, 512)
    longest, last = Run(Generator(64, 1, 1, 0), 0, 2**64 - 1), Run(Generator(64, 1, 1, 2**64 - 1), 0, 2)
    assert call("np_shared", longest, longest) == (0, 2**64 - 1)
    assert call("np_shared", longest, last) == call("np_shared", last, longest) == (0, 1)
    assert call("np_shared", Run(prime, 0, 2**32), Run(prime, 2**63, 2**31 - 3)) == (0, 2147483645)
    empty, wide, even = Run(g, 100, 0), Run(Generator(65, 371, 995, 73), 0, 8), Run(Generator(10, 370, 995, 73), 0, 8)
    assert call("np_shared", empty, wide) == call("np_shared", ours, empty) == (5, 0)
    assert call("np_shared", wide, empty) == call("np_shared", ours, wide) == (3, 0)
    assert call("np_shared", ours, run) == call("np_shared", even, even) == (16, 0)

    # Lengths of which 32 bits are those of a line, and of less: a file that takes no room but for its first bytes.
    with tempfile.TemporaryFile() as file:
        file.truncate(2**32 + len(line))
        memory = mmap.mmap(file.fileno(), 0)
        memory[: len(line)] = line
        long, room = ((kind * len(memory)).from_buffer(memory) for kind in (ctypes.c_char, c_uint8))
        assert call("np_lookup", long, len(long), 1) == call("np_summary", long, len(long)) == (1, 0, 0, 0)
        assert call("np_line", long, len(long), 1) == (0, 0)
        assert call("np_read_line", long, len(long)) == (2, 0, 0, 0, 0, 0, 0)
        assert call("np_write_line", run, room, 2**32 + 5) == (0, len(line))
        assert call("np_write_lane", parted, 3, 1, room, 2**32 + 5) == (0, len(lane))

    assert calls == set(CALLS)
    print(f"shared library: {len(calls)} calls from Python")


if __name__ == "__main__":
    try_calls(ctypes.CDLL(sys.argv[1]))
