"""The module against the header, word for word, and examples/mixed.kcb through every call: CALLBRIDGE=FOLDER python3 test_callbridge.py"""
import ctypes
import doctest
import os
import pickle
import random
import re
import struct
import subprocess
import sys
import threading
import unittest

HERE = os.path.dirname(os.path.abspath(__file__))
sys.path.insert(0, HERE)
import callbridge  # noqa: E402
from callbridge import Class, Part, Refused, Register, Station  # noqa: E402


def read(*path):
    with open(os.path.join(HERE, '..', '..', *path), 'rb') as file:
        return file.read()


MIXED = read('examples', 'mixed.kcb')
HEADER = read('include', 'callbridge.h').decode()
CODE = re.sub(r'/\*.*?\*/', '', HEADER, flags=re.S)
# int 7, struct {1.5, 9}, a long double, 2.5, an __int128.
VALUES = struct.pack('<idq', 7, 1.5, 9) + (0x3FFF8000000000000000).to_bytes(16, 'little') + struct.pack('<d', 2.5) + (1 << 100).to_bytes(16, 'little')
INT, DOUBLE, LONG_DOUBLE, BOOL = bytes([0, 3, 0, 0]), bytes([0, 7, 0, 0]), bytes([0, 8, 0, 0]), bytes([0, 0, 0, 0])
POINTER, VECTOR = bytes([0, 15, 0, 0]), bytes([0, 16, 0, 0])


def described(types, arguments, returns=255, members=b'', named=None):
    """A description of these records; variadic where fewer arguments are named than there are."""
    count = len(arguments)
    named = count if named is None else named
    head = bytes([1, 0, len(types), int(named < count), named, count, returns, len(members)])
    return b'KCB' + head + b''.join(types) + members + bytes(arguments)


def with_records(records):
    """The example with other records for some of its types."""
    changed = bytearray(MIXED)
    for number, record in records.items():
        changed[11 + 4 * number : 15 + 4 * number] = record
    return bytes(changed)


class Case(unittest.TestCase):
    def refused(self, number, call, *arguments, type_number=None):
        with self.assertRaises(Refused) as caught:
            call(*arguments)
        self.assertEqual((caught.exception.number, caught.exception.type), (number, type_number))
        return caught.exception


class Header(Case):
    def test_structs(self):
        types = {'uint8_t': ctypes.c_uint8, 'size_t': ctypes.c_size_t, 'uint32_t': ctypes.c_uint32, 'uint64_t': ctypes.c_uint64}
        structs = re.findall(r'typedef struct (cb_\w+) \{(.*?)\} \1;', CODE, flags=re.S)
        self.assertGreaterEqual(len(structs), 10)
        for name, fields in structs:
            found = re.findall(r'(\w+) (\w+)(?:\[(\d+)\])?;', fields)
            wanted = [(field, types[kind] * int(count) if count else types[kind]) for kind, field, count in found]
            own = getattr(callbridge, name)
            self.assertEqual(own._fields_, wanted, name)
            self.assertEqual(ctypes.sizeof(own), sum(ctypes.sizeof(kind) for _, kind in wanted), name + ' has padding')

    def test_functions(self):
        plain = {'size_t': 'c_ulong', 'uint8_t': 'c_ubyte', 'uint32_t': 'c_uint', 'uint64_t': 'c_ulong'}

        def kinds(parameter):
            kind = re.sub(r'\s*\w+$', '', parameter.strip()) if parameter.strip() != 'void' else ''
            if kind.endswith('*'):
                kind = kind[:-1].strip()
                if kind == 'const uint8_t':
                    return ('c_char_p', 'c_void_p')
                kind = kind.replace('const ', '')
                return ('c_void_p',) if kind == 'uint8_t' else ('LP_' + plain.get(kind, kind),)
            return (plain.get(kind, kind),)

        declared = re.findall(r'^(\w+) (cb_\w+)\(([^)]*)\);', CODE, flags=re.M)
        self.assertEqual(sorted(name for _, name, _ in declared), sorted(callbridge._FUNCTIONS))
        for result, name, parameters in declared:
            own = [kind.__name__ for kind in callbridge._FUNCTIONS[name]]
            wanted = [(plain.get(result, result),)] + [kinds(one) for one in parameters.split(',') if one.strip() != 'void']
            self.assertEqual(len(own), len(wanted), name)
            for one, many in zip(own, wanted):
                self.assertIn(one, many, name)

    def test_texts(self):
        table = CODE.split('texts[30] = {')[1].split('};')[0]
        self.assertEqual(tuple(re.findall(r'"(.*?)"', table)), callbridge.TEXTS)

    def test_numbers(self):
        defined = dict(re.findall(r'#define CB_(\w+) +(\d+)', CODE))
        self.assertEqual(int(defined['VERSION']), callbridge.INTERFACE)
        for name in ('MAX_ARGUMENTS', 'MAX_DESCRIPTION', 'SEAT_LENGTH', 'REGISTER_IMAGE', 'UPPER_IMAGE', 'RETURN_IMAGE', 'RETURN_UPPER', 'LISTING_ROOM'):
            self.assertEqual(int(defined[name]), getattr(callbridge, name), name)
        for kind, own in (('cb_class', Class), ('cb_register', Register)):
            listed = re.search(r'enum %s \{(.*?)\};' % kind, CODE, flags=re.S).group(1)
            wanted = {name: int(number) for name, number in re.findall(r'CB_(\w+) = (\d+)', listed)}
            if own is Register:
                self.assertEqual(wanted.pop('NONE'), callbridge._NONE)
            self.assertEqual({one.name: int(one) for one in own}, wanted)

    def test_every_call_has_its_function(self):
        beside = {'open_walk': Station, 'attach': Station, 'detach': Station, 'change': Station, 'step': callbridge.Walk, 'show': callbridge.Walk}
        renamed = {'finish_walk': (callbridge.Walk, 'finish')}
        for name in callbridge._FUNCTIONS:
            plain = name[len('cb_') :]
            if plain != 'new_station':
                owner, own = renamed.get(plain, (beside.get(plain, callbridge), plain))
                self.assertTrue(callable(getattr(owner, own)), name)

    def test_version(self):
        self.assertEqual(callbridge.version(), callbridge.INTERFACE)

    def test_a_new_station_is_all_zeros(self):
        self.assertEqual(bytes(callbridge._library.cb_new_station()), bytes(ctypes.sizeof(callbridge.cb_station)))
        self.assertEqual(bytes(Station()._station), bytes(ctypes.sizeof(callbridge.cb_station)))


def rubbish(kind):
    """A struct that is full of rubbish."""
    return kind.from_buffer_copy(b'\xa5' * ctypes.sizeof(kind))


class Raw(Case):
    """What the header says of reserved bytes, of `attached`, of a refused part and of NULL, through the functions themselves."""

    library = callbridge._library

    def test_a_refused_part_is_empty(self):
        part = rubbish(callbridge.cb_part)
        self.assertEqual(self.library.cb_member_run(MIXED, len(MIXED), 6, part).number, 8)
        self.assertEqual(bytes(part), bytes(24))
        part = rubbish(callbridge.cb_part)
        self.assertEqual(self.library.cb_member_run(MIXED, len(MIXED), 3, part).number, 0)
        self.assertEqual((part.offset, part.length, part.image, bytes(part.reserved)), (35, 2, 1, bytes(7)))

    def test_a_list_of_offsets(self):
        offsets = rubbish(ctypes.c_size_t * 3)
        self.assertEqual(self.library.cb_member_offsets(MIXED, len(MIXED), 3, offsets, 1).number, 11)
        self.assertEqual(bytes(offsets), b'\xa5' * 24)
        self.assertEqual(self.library.cb_member_offsets(MIXED, len(MIXED), 3, offsets, 3).number, 0)
        self.assertEqual(bytes(offsets), struct.pack('<QQ', 0, 8) + b'\xa5' * 8)
        self.assertEqual(self.library.cb_member_offsets(MIXED, len(MIXED), 0, None, 0).number, 0)

    def test_reserved_bytes(self):
        layout, placements = rubbish(callbridge.cb_layout), rubbish(callbridge.cb_placement * 6)
        self.assertEqual(self.library.cb_lay_out(MIXED, len(MIXED), layout, placements, 4).number, 11)
        self.assertEqual((bytes(layout), bytes(placements)), (b'\xa5' * 96, b'\xa5' * 240))
        self.assertEqual(self.library.cb_lay_out(MIXED, len(MIXED), layout, placements, 6).number, 0)
        self.assertEqual((bytes(layout.reserved), bytes(placements)[200:]), (bytes(5), b'\xa5' * 40))
        self.assertEqual([bytes(one.reserved) for one in placements[:5]], [bytes(4)] * 5)

    def test_any_number_but_0_is_attached(self):
        for number in range(1, 256):
            station, walk, seat = Station()._station, rubbish(callbridge.cb_walk), ctypes.create_string_buffer(586)
            station.reserved[:] = [number] * 3
            self.assertEqual(self.library.cb_open_walk(station, seat, 586, walk).number, 13)
            self.assertEqual(bytes(walk), b'\xa5' * 40)
            self.assertEqual(self.library.cb_attach(station, seat, 586, MIXED, len(MIXED)).number, 0)
            self.assertEqual((station.attached, bytes(station.reserved)), (1, bytes(3)))
            station.attached, station.reserved[:] = number, [number] * 3
            kept = bytes(station)
            self.assertEqual(self.library.cb_attach(station, seat, 586, MIXED, len(MIXED)).number, 14)
            self.assertEqual(bytes(station), kept)
            self.assertEqual(self.library.cb_open_walk(station, seat, 586, walk).number, 0)
            self.assertEqual((walk.position, walk.number, bytes(walk.reserved)), (3, 1, bytes(4)))
            self.assertEqual(self.library.cb_detach(station, seat, 586).number, 0)
            self.assertEqual(bytes(station), struct.pack('<QIB3x', 0, 1, 0))

    def test_a_refused_change_writes_where_something_was_attached(self):
        for number in range(256):
            station, seat = callbridge.cb_station(), ctypes.create_string_buffer(b'\x03' * 586, 586)
            station.length, station.number, station.attached, station.reserved[:] = 586, 9, number, [number] * 3
            kept = bytes(station)
            self.assertEqual(self.library.cb_change(station, seat, 585, MIXED, len(MIXED)).number, 11)
            self.assertEqual((bytes(station), seat.raw), (kept, b'\x03' * 586))
            self.assertEqual(self.library.cb_change(station, seat, 586, b'', 0).number, 1)
            left = (struct.pack('<QIB3x', 0, 9, 0), bytes(586)) if number else (kept, b'\x03' * 586)
            self.assertEqual((bytes(station), seat.raw), left)
            self.assertEqual(self.library.cb_change(station, seat, 586, MIXED, len(MIXED)).number, 0)
            self.assertEqual((bytes(station), seat.raw), (struct.pack('<QIB3x', len(MIXED), 10, 1), MIXED + bytes(586 - len(MIXED))))

    def test_an_empty_buffer_may_be_null(self):
        self.assertEqual(self.library.cb_check(None, 0).number, 1)
        nothing, registers, placed = described([], []), ctypes.create_string_buffer(b'x' * 176, 176), rubbish(callbridge.cb_placed)
        upper = ctypes.create_string_buffer(b'x' * 128, 128)
        self.assertEqual(self.library.cb_place_values(nothing, len(nothing), 7, None, 0, registers, 176, None, 0, None, 0, placed).number, 11)
        refusal = self.library.cb_place_values(nothing, len(nothing), 7, None, 0, registers, 176, upper, 128, None, 0, placed)
        self.assertEqual((refusal.number, placed.vector_registers, registers.raw, upper.raw), (0, 0, bytes(176), bytes(128)))


class Types(Case):
    def test_questions(self):
        self.assertIsNone(callbridge.check(MIXED))
        self.assertEqual(callbridge.type_extent(MIXED, 3), (16, 8))
        self.assertEqual(callbridge.type_classes(MIXED, 3), (Class.SSE, Class.INTEGER, Class.NO_CLASS, Class.NO_CLASS))
        self.assertEqual(callbridge.member_run(MIXED, 3), (1, 2))
        self.assertIsNone(callbridge.member_run(MIXED, 0))
        self.assertEqual(callbridge.member_offsets(MIXED, 3), (0, 8))
        self.assertIsNone(callbridge.member_offsets(MIXED, 0))
        for call in (callbridge.type_extent, callbridge.type_classes, callbridge.member_run, callbridge.member_offsets):
            self.refused(8, call, MIXED, 6)
            self.refused(8, call, MIXED, 255)

    def test_a_refusal_says_which_type_is_wrong(self):
        none, large = bytes([4, 0, 0, 0]), bytes([1, 0, 0, 16])
        for records, number, wrong in (({5: none, 0: none}, 6, 0), ({5: none, 3: none}, 6, 3), ({5: none, 2: large}, 6, 5), ({5: large, 2: large}, 7, 2)):
            d = with_records(records)
            refusal = self.refused(number, callbridge.check, d, type_number=wrong)
            self.assertEqual(str(refusal), f'refused {number}: {callbridge.TEXTS[number]}, type {wrong}')
            self.assertEqual(refusal.text, callbridge.TEXTS[number])
            self.assertEqual(callbridge.write_listing(d), f'refused {number} type {wrong}\n')
            self.refused(number, callbridge.type_extent, d, 1, type_number=wrong)
            self.refused(number, callbridge.type_classes, d, 1, type_number=wrong)
            self.refused(number, callbridge.member_run, d, 1, type_number=wrong)
            self.refused(number, callbridge.member_offsets, d, 1, type_number=wrong)
            self.refused(number, callbridge.layout_of, d, type_number=wrong)
            self.refused(number, callbridge.needs_stack, d, type_number=wrong)
            self.refused(number, callbridge.lay_out, d, type_number=wrong)
            self.refused(number, callbridge.tidy_length, d, type_number=wrong)
            self.refused(number, callbridge.tidy, d, type_number=wrong)
            self.refused(number, callbridge.place_values, d, VALUES, type_number=wrong)
            self.refused(number, callbridge.gather_values, d, bytes(176), bytes(128), b'', type_number=wrong)
            self.refused(number, callbridge.put_returned, d, bytes(8), type_number=wrong)
            self.refused(number, callbridge.take_returned, d, bytes(80), bytes(16), type_number=wrong)
            self.refused(number, Station().attach, d, type_number=wrong)
        refusal = self.refused(1, callbridge.check, b'')
        self.assertEqual(str(refusal), 'refused 1: the description has under 11 bytes')
        again = pickle.loads(pickle.dumps(self.refused(7, callbridge.check, with_records({2: large}), type_number=2)))
        self.assertEqual((again.number, again.type), (7, 2))

    def test_what_is_no_byte_string_or_no_number(self):
        for wrong in (None, 5, 'KCB', [75, 67, 66], 1.5):
            for call in (callbridge.check, callbridge.layout_of, callbridge.lay_out, callbridge.write_listing, Station().attach):
                self.assertRaises(TypeError, call, wrong)
            self.assertRaises(TypeError, callbridge.place_values, MIXED, wrong)
        apart = bytes(byte for one in MIXED for byte in (one, 0))
        for given in (bytearray(MIXED), memoryview(MIXED), memoryview(apart)[::2]):
            self.assertEqual(callbridge.layout_of(given), callbridge.layout_of(MIXED))
        for wrong in (-1, 256, 259, 1 << 70):
            self.assertRaises(ValueError, callbridge.type_extent, MIXED, wrong)
            self.assertRaises(ValueError, callbridge.type_classes, MIXED, wrong)
            self.assertRaises(ValueError, callbridge.member_run, MIXED, wrong)
            self.assertRaises(ValueError, callbridge.member_offsets, MIXED, wrong)
        for wrong in (-1, 1 << 64):
            self.assertRaises(ValueError, callbridge.place_values, MIXED, VALUES, wrong)
            self.assertRaises(ValueError, callbridge.put_returned, MIXED, bytes(8), wrong)


class Layouts(Case):
    def test_places(self):
        layout, placements = callbridge.lay_out(MIXED)
        self.assertEqual(callbridge.layout_of(MIXED), layout)
        self.assertEqual(layout, (4, 2, 16, 16, 16, 60, 8, 2, 1, 16, 5, (Register.XMM0,), False))
        self.assertEqual([str(one.place) for one in placements], ['rdi', 'xmm0 rsi', 'stack 0', 'xmm1', 'rdx rcx'])
        self.assertEqual([one[:3] for one in placements], [(0, 4, 4), (3, 16, 8), (4, 16, 16), (1, 8, 8), (5, 16, 16)])
        self.assertEqual([(one.value, one.named) for one in placements], [(0, True), (4, True), (20, True), (36, False), (44, False)])
        self.assertEqual(placements[2].place, ((), 0))
        self.assertEqual(placements[0].place, ((Register.RDI,), None))

    def test_listing(self):
        wanted = b''.join(read('examples', 'host.out').splitlines(keepends=True)[:8]).decode()
        self.assertEqual(callbridge.write_listing(MIXED), wanted)
        self.assertEqual(callbridge.write_listing(b''), 'refused 1\n')

    def test_registers(self):
        self.assertEqual([one.offset for one in (Register.RDI, Register.R9, Register.XMM0, Register.XMM7, Register.XMM0H, Register.XMM7H)], [0, 40, 48, 160, 56, 168])
        self.assertEqual([one.offset for one in (Register.RAX, Register.ST0, Register.ST1)], [None] * 3)
        self.assertEqual([(one.offset, one.upper_offset) for one in (Register.XMM0Y, Register.XMM7Y, Register.XMM7)], [(48, 0), (160, 112), (160, None)])
        self.assertEqual(f'{Register.XMM3H} {Register.R8} {Register.XMM5Y}', 'xmm3h r8 xmm5y')

    def test_sixty_four_arguments(self):
        layout, placements = callbridge.lay_out(described([INT], [0] * 64))
        self.assertEqual((layout.arguments, len(placements), layout.area), (64, 64, 464))
        self.assertEqual(str(placements[63].place), 'stack 456')

    def test_the_stack_is_needed(self):
        for arguments, need in (([], (False, 0)), ([1] * 6 + [2], (False, 7)), ([1] * 7 + [2], (True, 7)), ([0] + [1] * 63, (True, 1)), ([2, 0, 0], (True, 2))):
            d = described([LONG_DOUBLE, INT, DOUBLE], arguments)
            self.assertEqual(callbridge.needs_stack(d), need)
            self.assertEqual(callbridge.layout_of(d).area != 0, need[0])
        self.assertEqual(callbridge.needs_stack(MIXED), (True, 3))

    def test_a_too_large_area_needs_the_stack(self):
        d = described([INT, bytes([1, 0, 0, 4]), bytes([2, 0, 1, 0])], [0] + [2] * 5, members=bytes([1]))
        self.refused(10, callbridge.layout_of, d)
        self.assertEqual(callbridge.needs_stack(d), (True, 2))


class Tidying(Case):
    def test_dead_types_and_equal_ones(self):
        pair, other = bytes([2, 0, 2, 0]), bytes([2, 2, 2, 0])
        untidy = described([LONG_DOUBLE, INT, DOUBLE, pair, other], [4, 1, 3], members=bytes([1, 2, 1, 2]))
        tidied = described([INT, DOUBLE, pair], [2, 0, 2], members=bytes([0, 1]))
        self.assertEqual(callbridge.tidy(untidy), tidied)
        self.assertEqual(callbridge.tidy_length(untidy), len(tidied))
        self.assertEqual(callbridge.tidy(tidied), tidied)
        self.assertEqual([one.place for one in callbridge.lay_out(untidy)[1]], [one.place for one in callbridge.lay_out(tidied)[1]])

    def test_over_255_separate_members(self):
        wide = described([INT, bytes([2, 0, 255, 0]), bytes([2, 0, 1, 0])], [1, 2], members=bytes(255))
        self.assertIsNone(callbridge.check(wide))
        for call in (callbridge.tidy_length, callbridge.tidy):
            self.assertIn('over 255 members', self.refused(29, call, wide).text)


class Moving(Case):
    def test_values_come_back(self):
        placed = callbridge.place_values(MIXED, VALUES)
        self.assertEqual((len(placed.registers), len(placed.stack), placed.vector_registers), (176, 16, 2))
        self.assertEqual((placed.registers[:8], placed.registers[48:56]), (bytes([7, 0, 0, 0, 0, 0, 0, 0]), struct.pack('<d', 1.5)))
        self.assertEqual(callbridge.gather_values(MIXED, placed.registers, placed.upper, placed.stack), (VALUES, 0))
        self.refused(11, callbridge.place_values, MIXED, VALUES[1:])
        self.refused(11, callbridge.gather_values, MIXED, placed.registers[1:], placed.upper, placed.stack)
        self.refused(11, callbridge.gather_values, MIXED, placed.registers, placed.upper[1:], placed.stack)
        self.refused(11, callbridge.gather_values, MIXED, placed.registers, placed.upper, placed.stack + b'0')
        self.refused(12, callbridge.place_values, described([BOOL], [0]), b'\2')

    def test_no_argument_and_no_stack(self):
        nothing = described([INT], [])
        self.assertEqual(callbridge.layout_of(nothing).return_size, 0)
        placed = callbridge.place_values(nothing, b'')
        self.assertEqual(placed, (bytes(176), bytes(128), b'', 0))
        self.assertEqual(callbridge.gather_values(nothing, placed.registers, placed.upper, b''), (b'', 0))
        self.assertEqual(callbridge.put_returned(nothing, b''), (bytes(80), bytes(16)))
        self.assertEqual(callbridge.take_returned(nothing, bytes(80), bytes(16)), (b'', 0))

    def test_vectors_of_32_bytes(self):
        d = described([VECTOR, DOUBLE], [1, 0, 0], returns=0, named=2)
        self.assertEqual(callbridge.type_classes(d, 0), (Class.SSE, Class.SSEUP, Class.SSEUP, Class.SSEUP))
        layout, placements = callbridge.lay_out(d)
        self.assertEqual([str(one.place) for one in placements], ['xmm0', 'xmm1y', 'stack 0'])
        self.assertEqual((layout.vector_registers, layout.area, layout.area_alignment, layout.returned), (2, 32, 32, (Register.XMM0Y,)))
        values = bytes(range(1, 73))
        placed = callbridge.place_values(d, values)
        self.assertEqual((placed.registers[64:80], placed.upper, placed.stack), (values[8:24], bytes(16) + values[24:40] + bytes(96), values[40:]))
        self.assertEqual(callbridge.gather_values(d, placed.registers, placed.upper, placed.stack), (values, 0))
        images = callbridge.put_returned(d, values[:32])
        self.assertEqual((images.image[16:32], images.upper), (values[:16], values[16:32]))
        self.assertEqual(callbridge.take_returned(d, *images), (values[:32], 0))
        self.refused(11, callbridge.take_returned, d, images.image, b'')

    def test_a_returned_value_comes_back(self):
        level = struct.pack('<d', 0.25)
        image, upper = callbridge.put_returned(MIXED, level)
        self.assertEqual((image, upper), (bytes(16) + level + bytes(56), bytes(16)))
        self.assertEqual(callbridge.take_returned(MIXED, image, upper), (level, 0))
        self.refused(11, callbridge.put_returned, MIXED, b'')
        self.refused(11, callbridge.take_returned, MIXED, image[1:], upper)
        self.refused(12, callbridge.put_returned, described([BOOL], [], returns=0), b'\3')
        ten = described([LONG_DOUBLE], [], returns=0)
        self.assertEqual(callbridge.take_returned(ten, *callbridge.put_returned(ten, bytes(range(1, 17)))), (bytes(range(1, 11)) + bytes(6), 0))

    def test_a_value_in_memory(self):
        large = described([DOUBLE, bytes([2, 0, 3, 0])], [0], returns=1, members=bytes([0, 0, 0]))
        layout = callbridge.layout_of(large)
        self.assertEqual((layout.hidden, layout.returned, layout.return_size, layout.general_registers), (True, (), 24, 1))
        address = 0xFEDCBA9876543210
        placed = callbridge.place_values(large, bytes(8), address)
        self.assertEqual(placed.registers[:8], address.to_bytes(8, 'little'))
        self.assertEqual(callbridge.gather_values(large, placed.registers, placed.upper, placed.stack).hidden, address)
        images = callbridge.put_returned(large, b'', address)
        self.assertEqual(callbridge.take_returned(large, *images), (b'', address))

    def test_ilp32(self):
        pointers = bytearray(described([POINTER, bytes([2, 0, 3, 0])], [0] * 7, returns=1, members=bytes([0] * 3)))
        self.assertEqual(callbridge.layout_of(pointers).return_size, 24)
        pointers[6] = 2  # ILP32: a struct of three pointers has 12 bytes, and is returned in rax and rdx
        layout, placements = callbridge.lay_out(pointers)
        self.assertEqual((layout.hidden, layout.return_size, layout.values, layout.area), (False, 12, 28, 16))
        self.assertEqual({(one.size, one.align) for one in placements}, {(4, 4)})
        placed = callbridge.place_values(pointers, bytes([255]) * 28, 1 << 40)  # no address is passed, and none is looked at
        self.assertEqual(placed.registers, bytes([255] * 4 + [0] * 4) * 6 + bytes(128))
        self.assertEqual(placed.stack, bytes([255] * 4 + [0] * 12))

    def test_an_address_too_wide_for_ilp32(self):
        large = bytearray(described([DOUBLE, bytes([2, 0, 3, 0]), BOOL], [2], returns=1, members=bytes([0, 0, 0])))
        callbridge.place_values(large, bytes(1), 1 << 32)
        large[6] = 2
        low = (1 << 32) - 1
        placed = callbridge.place_values(large, bytes(1), low)
        self.assertEqual(placed.registers[:8], low.to_bytes(8, 'little'))
        self.assertEqual(callbridge.take_returned(large, *callbridge.put_returned(large, b'', low)), (b'', low))
        refusal = self.refused(27, callbridge.place_values, large, b'\2', 1 << 32)  # and not 12
        self.assertEqual(refusal.text, 'the hidden address is 2^32 or more, where a pointer has 4 bytes')
        self.refused(12, callbridge.place_values, large, b'\2', low)
        self.refused(27, callbridge.put_returned, large, b'', 1 << 32)
        wide = bytes([0, 0, 0, 0, 1]) + bytes(171)  # gathering answers all 64 bits
        self.assertEqual(callbridge.gather_values(large, wide, bytes(128), b''), (b'\0', 1 << 32))


class Walks(Case):
    def test_a_walk_ends_when_its_module_leaves(self):
        placed = callbridge.place_values(MIXED, VALUES)
        images = placed.registers, placed.stack
        station = Station()
        self.assertEqual((station.attached, station.number, station.description), (False, 0, b''))
        self.refused(13, station.open_walk)
        self.refused(13, station.detach)
        station.attach(MIXED)
        self.assertEqual((station.attached, station.number, station.description), (True, 1, MIXED))
        self.refused(14, station.attach, MIXED)
        self.assertEqual((station.attached, station.number, station.description), (True, 1, MIXED))
        walk = station.open_walk()
        self.assertEqual((walk.position, walk.general, walk.vector, walk.overflow), (3, 16, 64, 16))
        self.assertEqual(walk.show(*images, 1), Part('registers', 64, 8))
        self.assertEqual(walk.position, 3)
        self.assertEqual(walk.step(*images, 1), struct.pack('<d', 2.5))
        self.assertEqual(walk.position, 4)
        for call in (walk.step, walk.show):
            self.refused(20, call, *images, 1)
            self.refused(20, call, *images, 77)
            self.refused(11, call, images[0][1:], images[1], 5)
            self.refused(11, call, images[0], images[1][1:], 5)
            self.assertRaises(ValueError, call, *images, 256)
        self.assertEqual(walk.show(*images, 5), Part('registers', 16, 16))
        late = station.open_walk()
        self.assertEqual(walk.step(*images, 5), (1 << 100).to_bytes(16, 'little'))
        self.refused(19, walk.step, *images, 5)

        station.detach()
        self.assertEqual((station.attached, station.number, station.description), (False, 1, b''))
        self.refused(13, late.step, *images, 1)
        self.refused(13, late.show, *images, 1)
        station.attach(MIXED)
        self.refused(17, late.step, *images, 1)
        self.refused(17, late.show, *images, 1)
        self.assertEqual(station.open_walk().step(*images, 1), struct.pack('<d', 2.5))

    def test_modules_change_in_one_call(self):
        placed = callbridge.place_values(MIXED, VALUES)
        images = placed.registers, placed.stack
        station = Station()
        self.refused(1, station.change, b'')
        self.assertEqual((station.attached, station.number), (False, 0))
        station.change(MIXED)
        walk = station.open_walk()
        station.change(bytearray(MIXED))
        self.assertEqual((station.attached, station.number, station.description), (True, 2, MIXED))
        self.refused(17, walk.step, *images, 1)
        walk = station.open_walk()
        self.assertEqual(walk.step(*images, 1), struct.pack('<d', 2.5))
        self.refused(1, station.change, b'')
        self.assertEqual((station.attached, station.number, station.description), (False, 2, b''))
        self.refused(13, walk.step, *images, 5)
        self.assertRaises(TypeError, station.change, None)

    def test_all_the_rest_at_once(self):
        placed = callbridge.place_values(MIXED, VALUES)
        images = placed.registers, placed.stack
        station = Station()
        station.attach(MIXED)
        walk, other = station.open_walk(), station.open_walk()
        for number, types in ((24, []), (24, [1]), (24, [1, 5, 0]), (24, [9] * 100), (20, [1, 1]), (20, [5, 5]), (20, [255, 255])):
            self.refused(number, walk.finish, *images, types)
        self.refused(11, walk.finish, images[0], images[1] + b'x', [1, 5])
        self.refused(11, walk.finish, images[0][1:], images[1], [])
        self.assertEqual(walk.position, 3)
        stepped = [other.step(*images, 1), other.step(*images, 5)]
        self.assertEqual(walk.finish(*images, (1, 5)), stepped)
        self.assertEqual(bytes(walk._walk), bytes(other._walk))
        self.refused(19, walk.step, *images, 5)
        self.assertEqual(walk.finish(*images, b''), [])
        self.refused(24, walk.finish, *images, [5])
        self.refused(11, walk.finish, images[0], b'', [])
        half = station.open_walk()
        half.step(*images, 1)
        self.assertEqual(half.finish(*images, iter([5])), stepped[1:])
        early = station.open_walk()
        station.change(MIXED)
        self.refused(17, early.finish, *images, [1, 5])
        station.detach()
        self.refused(13, early.finish, *images, [1, 5])
        self.assertRaises(ValueError, early.finish, *images, [256])
        self.assertRaises(TypeError, early.finish, *images, None)

    def test_parts(self):
        two = described([DOUBLE, bytes([2, 0, 2, 0]), LONG_DOUBLE, INT], [3, 1, 2], members=bytes([0, 0]), named=1)
        values = struct.pack('<idd', 1, 2.0, 3.0) + bytes(range(16))
        placed = callbridge.place_values(two, values)
        station = Station()
        station.attach(two)
        walk = station.open_walk()
        self.assertIsNone(walk.show(placed.registers, placed.stack, 1))
        self.assertEqual(walk.step(placed.registers, placed.stack, 1), values[4:20])
        self.assertEqual(walk.show(placed.registers, placed.stack, 2), Part('stack', 0, 16))
        self.assertEqual(walk.step(placed.registers, placed.stack, 2), values[20:])
        plain = Station()
        plain.attach(described([INT], [0]))
        self.refused(16, plain.open_walk)

    def test_threads_share_a_station(self):
        station, accepted, wrong = Station(), [0], []
        lock = threading.Lock()

        def come_and_go():
            for _ in range(300):
                try:
                    station.attach(MIXED)
                    with lock:
                        accepted[0] += 1
                    station.detach()
                except Refused as refusal:
                    if refusal.number not in (13, 14):
                        wrong.append(refusal)

        threads = [threading.Thread(target=come_and_go) for _ in range(4)]
        for one in threads:
            one.start()
        for one in threads:
            one.join()
        self.assertEqual((wrong, station.number), ([], accepted[0]))


def noise(chance, length):
    return bytes(chance.randrange(256) for _ in range(length))


class Anything(Case):
    def test_any_bytes_are_answered_or_refused(self):
        """Damaged examples and noise, through every call: an answer or Refused, and all calls of one mind."""
        chance, accepted = random.Random(1), 0
        for _ in range(3000):
            d = bytearray(MIXED)
            for _ in range(chance.randrange(4)):
                d[chance.randrange(len(d))] = chance.randrange(256)
            d = bytes(d) if chance.randrange(8) else noise(chance, chance.randrange(600))
            try:
                layout, placements = callbridge.lay_out(d)
            except Refused as refusal:
                line = f'refused {refusal.number}' + ('' if refusal.type is None else f' type {refusal.type}')
                self.assertEqual(callbridge.write_listing(d), line + '\n')
                self.refused(refusal.number, callbridge.check, d, type_number=refusal.type)
                self.refused(refusal.number, Station().attach, d, type_number=refusal.type)
                continue
            accepted += 1
            values = bytes(one & 1 for one in noise(chance, layout.values))
            self.assertEqual(sum(one.size for one in placements), layout.values)
            self.assertEqual([one.value for one in placements], [sum(two.size for two in placements[:n]) for n in range(len(placements))])
            self.assertEqual([one.named for one in placements], [n < d[7] for n in range(len(placements))])
            placed = callbridge.place_values(d, values, 99)
            self.assertEqual(callbridge.gather_values(d, placed.registers, placed.upper, placed.stack), (values, 99 if layout.hidden else 0))
            station = Station()
            station.attach(d)
            if d[6] % 2 == 0:
                self.refused(16, station.open_walk)
                continue
            walk = station.open_walk()
            for one in placements[d[7] :]:
                value = values[one.value : one.value + one.size]
                part = walk.show(placed.registers, placed.stack, one.type)
                if part:
                    image = getattr(placed, part.image)
                    self.assertEqual(image[part.offset : part.offset + part.length], value)
                self.assertEqual(walk.step(placed.registers, placed.stack, one.type), value)
        self.assertGreater(accepted, 500)


class Loading(Case):
    def test_a_library_that_is_not_there(self):
        for folder in ('/nowhere', ''):
            words = [sys.executable, '-c', 'import callbridge']
            ended = subprocess.run(words, cwd=HERE, env={'CALLBRIDGE': folder, 'PATH': os.environ['PATH']}, capture_output=True, text=True, check=False)
            if ended.returncode or folder:
                self.assertRegex(ended.stderr, rf'ImportError: libcallbridge\.so\.{callbridge.INTERFACE} cannot be loaded .*; install it, or set CALLBRIDGE to its folder')


def load_tests(loader, tests, pattern):
    tests.addTests(doctest.DocTestSuite(callbridge))
    tests.addTests(doctest.DocFileSuite(os.path.join(HERE, 'README.md'), module_relative=False, globs={'MIXED': MIXED}))
    return tests


if __name__ == '__main__':
    unittest.main()
