//! The structs of `raw` are those of the library: tests/library/header.out has the sizes and offsets that tests/header finds in it.

use callbridge::raw;
use std::mem::{size_of, MaybeUninit};
use std::ptr::addr_of;

const SEEN: &str = include_str!("../../../tests/library/header.out");

/// The struct's name in C, its size, the offsets of its fields, which are named in the order of the header, and the bytes of them all.
macro_rules! structs {
    ($($name:literal $of:ident { $($field:ident)* })*) => { [$({
        let one = MaybeUninit::<raw::$of>::uninit();
        let whole = one.as_ptr();
        // Safety: the fields are not read, only where they stand.
        let offsets = unsafe { vec![$(addr_of!((*whole).$field) as usize - whole as usize),*] };
        let bytes = [$(bytes_of(|of: &raw::$of| of.$field)),*].iter().sum::<usize>();
        ($name, size_of::<raw::$of>(), offsets, bytes)
    }),*] };
}

fn bytes_of<Struct, Field>(_: fn(&Struct) -> Field) -> usize {
    size_of::<Field>()
}

#[test]
fn structs_are_those_of_the_library() {
    let all = structs! {
        "cb_refusal" Refusal { number type_number }
        "cb_extent" Extent { size align }
        "cb_classes" Classes { first second third fourth }
        "cb_part" Part { offset length image reserved }
        "cb_layout" Layout {
            general_registers vector_registers stack_end area area_alignment values return_size
            named_general_registers named_vector_registers named_stack_end
            arguments return_first return_second hidden reserved
        }
        "cb_placement" Placement { size align offset value type_number first second named reserved }
        "cb_stack_need" StackNeed { looked needed reserved }
        "cb_tidied" Tidied { length }
        "cb_placed" Placed { vector_registers }
        "cb_gathered" Gathered { hidden }
        "cb_station" Station { length number attached reserved }
        "cb_walk" Walk { position general vector overflow number reserved }
    };
    assert_eq!(SEEN.lines().filter(|line| line.starts_with("cb_")).count(), all.len());
    for (name, size, offsets, bytes) in all {
        let is_its = |line: &&str| line.split(' ').next() == Some(name);
        let line = SEEN.lines().find(is_its).unwrap_or_else(|| panic!("{name} is not there"));
        let numbers: Vec<usize> =
            line.split([' ', ':']).filter_map(|word| word.parse().ok()).collect();
        assert_eq!((numbers[0], &numbers[1..]), (size, &offsets[..]), "{name}");
        assert_eq!(size, bytes, "{name} has padding");
    }
}

#[test]
fn the_version_is_that_of_the_header() {
    let header = include_str!("../../../include/callbridge.h");
    let version = header.split("#define CB_VERSION ").nth(1).expect("a version");
    assert_eq!(version.lines().next(), Some(callbridge::version().to_string().as_str()));
}
