"""The call bridge for Python: where the arguments of a System V AMD64 call go, by description.

A *description* (KCB) is a byte string that says which types one call of a foreign function takes and returns. This module says which register or
stack slot holds each argument, moves the bytes of all values into a register image, an upper image (bytes 16 to 31 of ymm0 to ymm7) and a stack
image and back, brings a returned value back, and walks unnamed arguments as va_arg does. Descriptions may come from strangers: what breaks the rules raises Refused, and changes nothing.

    >>> import callbridge
    >>> description = b'KCB' + bytes([1, 0, 2, 0, 2, 2, 255, 0, 0, 3, 0, 0, 0, 7, 0, 0, 0, 1])    # void f(int, double)
    >>> layout, arguments = callbridge.lay_out(description)
    >>> [str(one.place) for one in arguments]
    ['rdi', 'xmm0']
    >>> import struct
    >>> placed = callbridge.place_values(description, struct.pack('<id', 60, 0.5))
    >>> placed.registers[0], placed.vector_registers
    (60, 1)

The calls are those of callbridge.h, by the same names without cb_. It needs the shared library: CALLBRIDGE names its folder where it is not
installed where the loader looks.
"""
import ctypes
import enum
import itertools
import os
import threading
from typing import Iterable, List, NamedTuple, Optional, Tuple, Union

__version__ = '5.1.0'

INTERFACE = 5  # CB_VERSION of the header that this module is written for
MAX_ARGUMENTS = 64
MAX_DESCRIPTION = 586
SEAT_LENGTH = 586
REGISTER_IMAGE = 176  # bytes: rdi, rsi, rdx, rcx, r8, r9 at 8, xmm0 to xmm7 at 16
UPPER_IMAGE = 128  # bytes: bytes 16 to 31 of ymm0 to ymm7, at 16
RETURN_IMAGE = 80  # bytes: rax, rdx at 8, xmm0, xmm1, st0, st1 at 16
RETURN_UPPER = 16  # bytes: bytes 16 to 31 of ymm0
LISTING_ROOM = 8192

Bytes = Union[bytes, bytearray, memoryview]

# What each refusal means, by number, as the header says it; 21 to 23, 25, 26 and 28 are no refusals of this library.
TEXTS = (
    'accepted',
    'the description has under 11 bytes',
    'the description does not begin with KCB',
    "the description's version is not 1",
    "the description's counts of types or arguments, or its byte 6, are against the rules",
    'the description has not the length that its counts ask for',
    'a type record is against the rules',
    'a type has over 4096 bytes',
    'a type number names no type, or an array where a value is passed or returned',
    'an unnamed argument is a _Bool, char, short or float',
    'the stack area is over 16384 bytes',
    "a buffer has the wrong length, the list is too short, or the station's length is over 586",
    'the byte of a _Bool argument is not 0 or 1',
    'nothing is attached',
    'something is attached already',
    "the station's number can count no further",
    'the function is not variadic',
    'the walk is of another attachment',
    "the walk's position or offsets are not those of this description",
    'the walk has passed the last argument',
    'the argument is of another type',
    '',
    '',
    '',
    'the types asked are not as many as the arguments that are left',
    '',
    '',
    'the hidden address is 2^32 or more, where a pointer has 4 bytes',
    '',
    'the structs and unions that are used have over 255 members together',
)


class Refused(Exception):
    """A call was refused, and changed nothing, but for Station.change: its number, 1 to 20, 24, 27 or 29, the header's text for it, and the type that is wrong.

    `type` is a number for 6 and 7, the lowest of a type that breaks that rule, and None for every other refusal.
    """

    def __init__(self, number: int, type_number: int = 0):
        self.number = number
        self.type: Optional[int] = type_number if number in (6, 7) else None
        self.text = (TEXTS[number] if 0 < number < len(TEXTS) else '') or 'no refusal of this library'
        super().__init__(number, type_number)

    def __str__(self) -> str:
        return f'refused {self.number}: {self.text}' + ('' if self.type is None else f', type {self.type}')


# ---- the structs and functions of callbridge.h, word for word (the tests compare them)


def _struct(name, *fields):
    return type(name, (ctypes.Structure,), {'_fields_': list(fields)})


_byte, _size, _pointer = ctypes.c_uint8, ctypes.c_size_t, ctypes.POINTER
cb_refusal = _struct('cb_refusal', ('number', _byte), ('type', _byte))
cb_extent = _struct('cb_extent', ('size', _size), ('align', _size))
cb_classes = _struct('cb_classes', ('first', _byte), ('second', _byte), ('third', _byte), ('fourth', _byte))
cb_part = _struct('cb_part', ('offset', _size), ('length', _size), ('image', _byte), ('reserved', _byte * 7))
cb_placement = _struct(
    'cb_placement',
    ('size', _size),
    ('align', _size),
    ('offset', _size),
    ('value', _size),
    ('type', _byte),
    ('first', _byte),
    ('second', _byte),
    ('named', _byte),
    ('reserved', _byte * 4),
)
cb_layout = _struct(
    'cb_layout',
    ('general_registers', _size),
    ('vector_registers', _size),
    ('stack_end', _size),
    ('area', _size),
    ('area_alignment', _size),
    ('values', _size),
    ('return_size', _size),
    ('named_general_registers', _size),
    ('named_vector_registers', _size),
    ('named_stack_end', _size),
    ('arguments', _size),
    ('return_first', _byte),
    ('return_second', _byte),
    ('hidden', _byte),
    ('reserved', _byte * 5),
)
cb_stack_need = _struct('cb_stack_need', ('looked', _size), ('needed', _byte), ('reserved', _byte * 7))
cb_tidied = _struct('cb_tidied', ('length', _size))
cb_placed = _struct('cb_placed', ('vector_registers', _size))
cb_gathered = _struct('cb_gathered', ('hidden', ctypes.c_uint64))
cb_station = _struct('cb_station', ('length', _size), ('number', ctypes.c_uint32), ('attached', _byte), ('reserved', _byte * 3))
cb_walk = _struct(
    'cb_walk',
    ('position', _size),
    ('general', _size),
    ('vector', _size),
    ('overflow', _size),
    ('number', ctypes.c_uint32),
    ('reserved', _byte * 4),
)

# Bytes that are read go as `bytes`, those that are written as buffers of this module's own: no two can overlap, and none is NULL.
_in, _out = ctypes.c_char_p, ctypes.c_void_p
_FUNCTIONS = {
    'cb_version': (ctypes.c_uint32,),
    'cb_check': (cb_refusal, _in, _size),
    'cb_type_extent': (cb_refusal, _in, _size, _byte, _pointer(cb_extent)),
    'cb_type_classes': (cb_refusal, _in, _size, _byte, _pointer(cb_classes)),
    'cb_member_run': (cb_refusal, _in, _size, _byte, _pointer(cb_part)),
    'cb_member_offsets': (cb_refusal, _in, _size, _byte, _pointer(_size), _size),
    'cb_layout_of': (cb_refusal, _in, _size, _pointer(cb_layout)),
    'cb_needs_stack': (cb_refusal, _in, _size, _pointer(cb_stack_need)),
    'cb_lay_out': (cb_refusal, _in, _size, _pointer(cb_layout), _pointer(cb_placement), _size),
    'cb_write_listing': (_size, _in, _size, _out),
    'cb_tidy_length': (cb_refusal, _in, _size, _pointer(cb_tidied)),
    'cb_tidy': (cb_refusal, _in, _size, _out, _size),
    'cb_place_values': (cb_refusal, _in, _size, ctypes.c_uint64, _in, _size, _out, _size, _out, _size, _out, _size, _pointer(cb_placed)),
    'cb_gather_values': (cb_refusal, _in, _size, _in, _size, _in, _size, _in, _size, _out, _size, _pointer(cb_gathered)),
    'cb_put_returned': (cb_refusal, _in, _size, ctypes.c_uint64, _in, _size, _out, _size, _out, _size),
    'cb_take_returned': (cb_refusal, _in, _size, _in, _size, _in, _size, _out, _size, _pointer(cb_gathered)),
    'cb_new_station': (cb_station,),
    'cb_attach': (cb_refusal, _pointer(cb_station), _out, _size, _in, _size),
    'cb_detach': (cb_refusal, _pointer(cb_station), _out, _size),
    'cb_change': (cb_refusal, _pointer(cb_station), _out, _size, _in, _size),
    'cb_open_walk': (cb_refusal, _pointer(cb_station), _out, _size, _pointer(cb_walk)),
    'cb_step': (cb_refusal, _pointer(cb_station), _out, _size, _pointer(cb_walk), _in, _size, _in, _size, _byte, _out, _size),
    'cb_finish_walk': (
        cb_refusal,
        _pointer(cb_station),
        _out,
        _size,
        _pointer(cb_walk),
        _in,
        _size,
        _in,
        _size,
        _in,
        _size,
        _out,
        _size,
    ),
    'cb_show': (cb_refusal, _pointer(cb_station), _out, _size, _pointer(cb_walk), _in, _size, _in, _size, _byte, _pointer(cb_part)),
}


def _load():
    """The shared library: in the folder that CALLBRIDGE names, else where the loader finds it."""
    name = f'libcallbridge.so.{INTERFACE}'
    folder = os.environ.get('CALLBRIDGE')
    try:
        library = ctypes.CDLL(os.path.join(folder, name) if folder else name)
    except OSError as error:
        raise ImportError(f'{name} cannot be loaded ({error}); install it, or set CALLBRIDGE to its folder') from error
    for function, (result, *arguments) in _FUNCTIONS.items():
        call = getattr(library, function)
        call.restype, call.argtypes = result, arguments
    if library.cb_version() != INTERFACE:
        raise ImportError(f'{name} is of version {library.cb_version()}, this module is for {INTERFACE}')
    return library


_library = _load()


# ---- what is lent, and what comes back


def _bytes(given: Bytes) -> bytes:
    """What any object with bytes holds; a number, a text or a list is no such object."""
    return given if type(given) is bytes else memoryview(given).tobytes()


def _number(given: int, bits: int, what: str) -> int:
    """A number that fits: ctypes would cut it without a word."""
    number = given.__index__()
    if not 0 <= number < 1 << bits:
        raise ValueError(f'{what} is {number}, and has {bits} bits at most')
    return number


def _room(length: int):
    return ctypes.create_string_buffer(max(length, 1))


def _accepted(answer) -> None:
    if answer.number:
        raise Refused(answer.number, answer.type)


# ---- types


class Extent(NamedTuple):
    """Size and alignment of a type, in bytes."""

    size: int
    align: int


class Class(enum.IntEnum):
    """The classes of the AMD64 supplement, section 3.2.3."""

    NO_CLASS = 0
    INTEGER = 1
    SSE = 2
    SSEUP = 3
    X87 = 4
    X87UP = 5
    COMPLEX_X87 = 6
    MEMORY = 7


def version() -> int:
    """CB_VERSION of the library."""
    return _library.cb_version()


def check(description: Bytes) -> None:
    """Nothing where the description is right in every respect. Refused 1 to 10."""
    d = _bytes(description)
    _accepted(_library.cb_check(d, len(d)))


def type_extent(description: Bytes, type_number: int) -> Extent:
    """Size and alignment of the type with this number. Refused 1 to 7, then 8 for a number that no type has."""
    d, out = _bytes(description), cb_extent()
    _accepted(_library.cb_type_extent(d, len(d), _number(type_number, 8, 'the type'), out))
    return Extent(out.size, out.align)


def type_classes(description: Bytes, type_number: int) -> Tuple[Class, Class, Class, Class]:
    """The classes of the type's first four eightbytes. Refused as type_extent."""
    d, out = _bytes(description), cb_classes()
    _accepted(_library.cb_type_classes(d, len(d), _number(type_number, 8, 'the type'), out))
    return Class(out.first), Class(out.second), Class(out.third), Class(out.fourth)


def member_run(description: Bytes, type_number: int) -> Optional[Tuple[int, ...]]:
    """The type numbers of a struct's or union's members, in order; None for another kind of type. Refused as type_extent."""
    d, out = _bytes(description), cb_part()
    _accepted(_library.cb_member_run(d, len(d), _number(type_number, 8, 'the type'), out))
    return tuple(d[out.offset : out.offset + out.length]) if out.image == 1 else None


def member_offsets(description: Bytes, type_number: int) -> Optional[Tuple[int, ...]]:
    """Where each member of a struct or union lies in it, in bytes and in order; None for another kind of type. Refused as type_extent."""
    d = _bytes(description)
    members = member_run(d, type_number)
    if members is None:
        return None
    out = (_size * len(members))()
    _accepted(_library.cb_member_offsets(d, len(d), _number(type_number, 8, 'the type'), out, len(members)))
    return tuple(out)


# ---- layout


class Register(enum.IntEnum):
    """Registers by the header's numbers. RAX, ST0 and ST1 hold returned values only; XMM0H is the upper half of XMM0, XMM0Y all 32 bytes of ymm0."""

    RDI = 0
    RSI = 1
    RDX = 2
    RCX = 3
    R8 = 4
    R9 = 5
    RAX = 6
    ST0 = 8
    ST1 = 9
    XMM0 = 16
    XMM1 = 17
    XMM2 = 18
    XMM3 = 19
    XMM4 = 20
    XMM5 = 21
    XMM6 = 22
    XMM7 = 23
    XMM0H = 32
    XMM1H = 33
    XMM2H = 34
    XMM3H = 35
    XMM4H = 36
    XMM5H = 37
    XMM6H = 38
    XMM7H = 39
    XMM0Y = 48
    XMM1Y = 49
    XMM2Y = 50
    XMM3Y = 51
    XMM4Y = 52
    XMM5Y = 53
    XMM6Y = 54
    XMM7Y = 55

    def __str__(self) -> str:
        return self.name.lower()

    __format__ = object.__format__

    @property
    def offset(self) -> Optional[int]:
        """Where it stands in the register image, XMM0Y with its bytes 0 to 15; None for rax, st0 and st1, which are not there."""
        if self <= Register.R9:
            return 8 * self
        if self >= Register.XMM0Y:
            return 48 + 16 * (self - Register.XMM0Y)
        if self >= Register.XMM0H:
            return 56 + 16 * (self - Register.XMM0H)
        return 48 + 16 * (self - Register.XMM0) if self >= Register.XMM0 else None

    @property
    def upper_offset(self) -> Optional[int]:
        """Where bytes 16 to 31 of XMM0Y to XMM7Y stand in the upper image; None for the others."""
        return 16 * (self - Register.XMM0Y) if self >= Register.XMM0Y else None


_NONE = 255


class Place(NamedTuple):
    """Where a value is: one or two registers, in eightbyte order, or none and an offset of the stack image."""

    registers: Tuple[Register, ...]
    stack: Optional[int]

    def __str__(self) -> str:
        return ' '.join(map(str, self.registers)) if self.registers else f'stack {self.stack}'


class Placement(NamedTuple):
    """One argument: its type's number, its size and alignment in bytes, its place, where its value begins in the packed values, and whether it is named."""

    type: int
    size: int
    align: int
    place: Place
    value: int
    named: bool


class Layout(NamedTuple):
    """A call as a whole.

    `returned` has the registers of the returned value: none for void, `hidden` false, and for a value in memory, `hidden` true, whose address the
    host passes in rdi. `area` is the length of the stack image, which begins at a multiple of `area_alignment`, 16 or 32; `values` is that of all
    values, packed, `return_size` that of the returned value, in memory too, and 0 for void; the three `named_` numbers are where a walk starts.
    """

    general_registers: int
    vector_registers: int
    stack_end: int
    area: int
    area_alignment: int
    values: int
    return_size: int
    named_general_registers: int
    named_vector_registers: int
    named_stack_end: int
    arguments: int
    returned: Tuple[Register, ...]
    hidden: bool


class StackNeed(NamedTuple):
    """Whether an argument goes to the stack, and how many arguments were looked at: up to the first that does, or all of them."""

    needed: bool
    looked: int


def _registers(first: int, second: int) -> Tuple[Register, ...]:
    return tuple(Register(number) for number in (first, second) if number != _NONE)


def _layout(of) -> Layout:
    numbers = [getattr(of, name) for name in Layout._fields[:11]]
    return Layout(*numbers, _registers(of.return_first, of.return_second), of.hidden != 0)


def _placement(of) -> Placement:
    registers = _registers(of.first, of.second)
    return Placement(of.type, of.size, of.align, Place(registers, None if registers else of.offset), of.value, of.named != 0)


def layout_of(description: Bytes) -> Layout:
    """The layout of the call. Refused 1 to 10."""
    d, out = _bytes(description), cb_layout()
    _accepted(_library.cb_layout_of(d, len(d), out))
    return _layout(out)


def needs_stack(description: Bytes) -> StackNeed:
    """Whether an argument goes to the stack, told at the first that does: as `layout_of(description).area != 0`. Refused 1 to 9, and never 10."""
    d, out = _bytes(description), cb_stack_need()
    _accepted(_library.cb_needs_stack(d, len(d), out))
    return StackNeed(out.needed != 0, out.looked)


def lay_out(description: Bytes) -> Tuple[Layout, List[Placement]]:
    """The same, and one placement for each argument, in order. Refused 1 to 10."""
    d, out, placements = _bytes(description), cb_layout(), (cb_placement * MAX_ARGUMENTS)()
    _accepted(_library.cb_lay_out(d, len(d), out, placements, MAX_ARGUMENTS))
    return _layout(out), [_placement(one) for one in placements[: out.arguments]]


def write_listing(description: Bytes) -> str:
    """The layout as text; for what is refused the line `refused n`, or `refused n type t` where the refusal names a type."""
    d, out = _bytes(description), _room(LISTING_ROOM)
    length = _library.cb_write_listing(d, len(d), out)
    return out.raw[:length].decode('ascii')


# ---- tidying


def tidy_length(description: Bytes) -> int:
    """How many bytes the tidy form has. Refused 1 to 10, then 29 where the separate runs need over 255 members."""
    d, out = _bytes(description), cb_tidied()
    _accepted(_library.cb_tidy_length(d, len(d), out))
    return out.length


def tidy(description: Bytes) -> bytes:
    """The tidy form: only the types that the call uses, equal ones once, each struct or union with a run of its own. Refused as tidy_length.

    Two descriptions have the same one exactly where they describe the same call.
    """
    d = _bytes(description)
    length = tidy_length(d)
    out = _room(length)
    _accepted(_library.cb_tidy(d, len(d), out, length))
    return out.raw[:length]


# ---- moving


class Placed(NamedTuple):
    """The three images, and the vector registers used, which a variadic function wants in al."""

    registers: bytes
    upper: bytes
    stack: bytes
    vector_registers: int


class Gathered(NamedTuple):
    """Values, and the hidden address, 0 where none is passed."""

    value: bytes
    hidden: int


class ReturnImages(NamedTuple):
    """What a called function leaves: the return image and the upper return image."""

    image: bytes
    upper: bytes


def place_values(description: Bytes, values: Bytes, hidden: int = 0) -> Placed:
    """Places the values, packed argument after argument, and zeros everywhere else in the three images.

    The hidden address goes into rdi where one is passed, and is not looked at otherwise. Refused 1 to 10, then 11 for another length of values than
    the layout's, then 27 for a hidden address of 2^32 or more that is passed in ILP32, then 12 for a _Bool argument's byte that is not 0 or 1.
    """
    d, v, address = _bytes(description), _bytes(values), _number(hidden, 64, 'the hidden address')
    area = layout_of(d).area
    registers, upper, stack, out = _room(REGISTER_IMAGE), _room(UPPER_IMAGE), _room(area), cb_placed()
    _accepted(_library.cb_place_values(d, len(d), address, v, len(v), registers, REGISTER_IMAGE, upper, UPPER_IMAGE, stack, area, out))
    return Placed(registers.raw[:REGISTER_IMAGE], upper.raw[:UPPER_IMAGE], stack.raw[:area], out.vector_registers)


def gather_values(description: Bytes, registers: Bytes, upper: Bytes, stack: Bytes) -> Gathered:
    """The reverse: the values, packed, and the hidden address. Refused 1 to 10, then 11 for an image of another length than the call's."""
    d, r, u, s = _bytes(description), _bytes(registers), _bytes(upper), _bytes(stack)
    length = layout_of(d).values
    values, out = _room(length), cb_gathered()
    _accepted(_library.cb_gather_values(d, len(d), r, len(r), u, len(u), s, len(s), values, length, out))
    return Gathered(values.raw[:length], out.hidden)


def _returned_length(description: bytes) -> int:
    """Bytes of the returned value in the return images: 0 for void and for a value in memory."""
    layout = layout_of(description)
    return 0 if layout.hidden else layout.return_size


def put_returned(description: Bytes, value: Bytes, hidden: int = 0) -> ReturnImages:
    """The return images that the called function leaves: the value, and zeros everywhere else.

    void has no byte here, and neither has a value in memory: rax then holds the hidden address. Of each long double ten bytes are put, the other six
    are zero. Refused 1 to 10, then 11 for a length other than the returned type's, then 27 for a hidden address of 2^32 or more that is
    returned in ILP32, then 12 for a returned _Bool's byte that is not 0 or 1.
    """
    d, v, image, upper = _bytes(description), _bytes(value), _room(RETURN_IMAGE), _room(RETURN_UPPER)
    address = _number(hidden, 64, 'the hidden address')
    _accepted(_library.cb_put_returned(d, len(d), address, v, len(v), image, RETURN_IMAGE, upper, RETURN_UPPER))
    return ReturnImages(image.raw[:RETURN_IMAGE], upper.raw[:RETURN_UPPER])


def take_returned(description: Bytes, image: Bytes, upper: Bytes) -> Gathered:
    """The reverse: the returned value out of the return images, and the hidden address. Refused 1 to 10, then 11 for another length of an image."""
    d, i, u = _bytes(description), _bytes(image), _bytes(upper)
    length = _returned_length(d)
    value, out = _room(length), cb_gathered()
    _accepted(_library.cb_take_returned(d, len(d), i, len(i), u, len(u), value, length, out))
    return Gathered(value.raw[:length], out.hidden)


# ---- station and walk


class Part(NamedTuple):
    """So many bytes of an image, 'registers' or 'stack', from an offset on."""

    image: str
    offset: int
    length: int


class Station:
    """Holds the description of the module that is attached, and opens walks over the unnamed arguments of its call.

    Station and seat are one here, so that the two are always lent together and nothing else changes them: what is promised of walks supposes that.
    Threads may share one.
    """

    def __init__(self):
        # All fields 0, as cb_new_station gives it: early Python 3.7 and 3.8 take no struct with an array from a call.
        self._station = cb_station()
        self._seat = _room(SEAT_LENGTH)
        self._lock = threading.Lock()

    @property
    def attached(self) -> bool:
        return self._station.attached != 0

    @property
    def number(self) -> int:
        """Of the last attachment, 0 before the first."""
        return self._station.number

    @property
    def description(self) -> bytes:
        """What is attached; empty where nothing is."""
        with self._lock:
            return self._seat.raw[: self._station.length]

    def attach(self, description: Bytes) -> None:
        """Refused 14 where something is attached, 15 where the number can count no further, then 1 to 10."""
        d = _bytes(description)
        with self._lock:
            _accepted(_library.cb_attach(self._station, self._seat, SEAT_LENGTH, d, len(d)))

    def detach(self) -> None:
        """Every walk that was opened before is refused from now on. Refused 13 where nothing is attached."""
        with self._lock:
            _accepted(_library.cb_detach(self._station, self._seat, SEAT_LENGTH))

    def change(self, description: Bytes) -> None:
        """Changes modules: detaches what is attached, if anything is, and attaches the description. Refused 15, then 1 to 10: nothing is attached then."""
        d = _bytes(description)
        with self._lock:
            _accepted(_library.cb_change(self._station, self._seat, SEAT_LENGTH, d, len(d)))

    def open_walk(self) -> 'Walk':
        """A walk before the first unnamed argument. Refused 13, then 16 for a function that is not variadic."""
        walk = cb_walk()
        with self._lock:
            _accepted(_library.cb_open_walk(self._station, self._seat, SEAT_LENGTH, walk))
        return Walk(self, walk)


class Walk:
    """Where a walk over the unnamed arguments stands. It comes from Station.open_walk, and `step` and `finish` alone move it on."""

    def __init__(self, station: Station, walk):
        self._owner = station
        self._walk = walk

    @property
    def position(self) -> int:
        """The number of the next argument."""
        return self._walk.position

    @property
    def general(self) -> int:
        """gp_offset, 0 to 48."""
        return self._walk.general

    @property
    def vector(self) -> int:
        """fp_offset, 48 to 176."""
        return self._walk.vector

    @property
    def overflow(self) -> int:
        """The offset in the stack image."""
        return self._walk.overflow

    def step(self, registers: Bytes, stack: Bytes, type_number: int) -> bytes:
        """The bytes of the next argument, of the type with this number, out of two of the images; moves on. No unnamed one is in the upper image.

        Refused 11 for the length of an image, 13 where nothing is attached, 17 for a walk of another attachment, 19 at the end, 20 for another type.
        """
        r, s, t = _bytes(registers), _bytes(stack), _number(type_number, 8, 'the type')
        owner = self._owner
        with owner._lock:
            length = self._length(t)
            out = _room(length)
            _accepted(_library.cb_step(owner._station, owner._seat, SEAT_LENGTH, self._walk, r, len(r), s, len(s), t, out, length))
        return out.raw[:length]

    def finish(self, registers: Bytes, stack: Bytes, types: Iterable[int]) -> List[bytes]:
        """The bytes of each argument that is left, of the types with these numbers, as `step` for each of them gives them; moves behind the last.

        Every type is looked at before anything moves. Refused 11, 13 and 17 as step, then 24 for more or fewer types than arguments left, 20 where any is
        another type; never 19: no types with no argument left give the empty list.
        """
        r, s, t = _bytes(registers), _bytes(stack), bytes(_number(one, 8, 'a type') for one in types)
        owner = self._owner
        with owner._lock:
            # More types than any call has are refused before the length is looked at.
            lengths = [self._length(one) for one in t[:MAX_ARGUMENTS]]
            length = sum(lengths)
            out = _room(length)
            _accepted(
                _library.cb_finish_walk(owner._station, owner._seat, SEAT_LENGTH, self._walk, r, len(r), s, len(s), t, len(t), out, length)
            )
        packed, ends = out.raw, itertools.accumulate(lengths)
        return [packed[end - one : end] for one, end in zip(lengths, ends)]

    def show(self, registers: Bytes, stack: Bytes, type_number: int) -> Optional[Part]:
        """Where the next argument lies, and moves no walk; None where it is in two vector registers, or in a general and a vector one. Refused as step."""
        r, s, t = _bytes(registers), _bytes(stack), _number(type_number, 8, 'the type')
        owner, part = self._owner, cb_part()
        with owner._lock:
            _accepted(_library.cb_show(owner._station, owner._seat, SEAT_LENGTH, self._walk, r, len(r), s, len(s), t, part))
        return Part('registers' if part.image == 2 else 'stack', part.offset, part.length) if part.image else None

    def _length(self, type_number: int) -> int:
        """The size of a type of what is attached; 0 where there is none, which cb_step and cb_finish_walk refuse before they look at the length."""
        out = cb_extent()
        answer = _library.cb_type_extent(self._owner._seat.raw, self._owner._station.length, type_number, out)
        return 0 if answer.number else out.size
