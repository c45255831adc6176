//! The raw calls: what the header says of reserved bytes, of `attached`, of a refused part and of NULL.

use callbridge::raw::*;
use std::ptr::{null, null_mut};

const MIXED: &[u8] = include_bytes!("../../../examples/mixed.kcb");

const RUBBISH: Part = Part { offset: 1, length: 2, image: 3, reserved: [4; 7] };

#[test]
fn a_refused_part_is_empty() {
    let mut part = RUBBISH;
    let refusal = unsafe { cb_member_run(MIXED.as_ptr(), MIXED.len(), 6, &mut part) };
    assert_eq!((refusal.number, part), (8, Part::default()));
    part = RUBBISH;
    let refusal = unsafe { cb_member_run(MIXED.as_ptr(), MIXED.len(), 3, &mut part) };
    let members = Part { offset: 35, length: 2, image: DESCRIPTION, reserved: [0; 7] };
    assert_eq!((refusal.number, part), (0, members));
}

#[test]
fn a_list_of_offsets_is_long_enough_or_stays() {
    let (d, n) = (MIXED.as_ptr(), MIXED.len());
    let mut offsets = [99; 3];
    let refusal = unsafe { cb_member_offsets(d, n, 3, offsets.as_mut_ptr(), 1) };
    assert_eq!((refusal.number, offsets), (11, [99; 3]));
    let refusal = unsafe { cb_member_offsets(d, n, 3, offsets.as_mut_ptr(), 3) };
    assert_eq!((refusal.number, offsets), (0, [0, 8, 99]));
    let refusal = unsafe { cb_member_offsets(d, n, 0, null_mut(), 0) };
    assert_eq!(refusal.number, 0);
}

#[test]
fn any_number_but_0_is_attached() {
    let (registers, stack) = ([0; 176], [0; 16]);
    for attached in 1..=255 {
        let mut seat = [0; 586];
        let mut station = unsafe { cb_new_station() };
        assert_eq!(station, Station::default());
        let refusal =
            unsafe { cb_attach(&mut station, seat.as_mut_ptr(), 586, MIXED.as_ptr(), MIXED.len()) };
        assert_eq!(refusal.number, 0);
        let expected = Station { length: MIXED.len(), number: 1, attached: 1, reserved: [0; 3] };
        assert_eq!(station, expected);

        station.attached = attached;
        station.reserved = [attached; 3];
        let kept = station;
        let mut walk = Walk { reserved: [attached; 4], ..Walk::default() };
        let refusal = unsafe { cb_open_walk(&station, seat.as_ptr(), 586, &mut walk) };
        assert_eq!((refusal.number, walk.position, walk.reserved), (0, 3, [0; 4]));
        walk.reserved = [attached; 4];
        let mut part = RUBBISH;
        let refusal = unsafe {
            let (registers, stack) = (registers.as_ptr(), stack.as_ptr());
            cb_show(&station, seat.as_ptr(), 586, &walk, registers, 176, stack, 16, 1, &mut part)
        };
        let shown = Part { offset: 64, length: 8, image: REGISTERS, reserved: [0; 7] };
        assert_eq!((refusal.number, part), (0, shown));
        let refusal =
            unsafe { cb_attach(&mut station, seat.as_mut_ptr(), 586, MIXED.as_ptr(), MIXED.len()) };
        assert_eq!((refusal.number, station), (14, kept));
        let refusal = unsafe { cb_detach(&mut station, seat.as_mut_ptr(), 586) };
        assert_eq!(refusal.number, 0);
        assert_eq!(station, Station { length: 0, number: 1, attached: 0, reserved: [0; 3] });
    }
}

/// "Refused under 11 it changes nothing"; where nothing was attached, nothing changes; else what was attached has left.
#[test]
fn a_refused_change_writes_where_something_was_attached() {
    let change = |station: &mut Station, seat: &mut [u8], d: &[u8]| unsafe {
        cb_change(station, seat.as_mut_ptr(), seat.len(), d.as_ptr(), d.len()).number
    };
    for attached in 0..=255 {
        let kept = Station { length: 586, number: 9, attached, reserved: [attached; 3] };
        let (mut station, mut seat) = (kept, [3; 586]);
        assert_eq!(change(&mut station, &mut seat[..585], MIXED), 11);
        assert_eq!((station, seat), (kept, [3; 586]));
        assert_eq!(change(&mut station, &mut seat, &[]), 1);
        if attached == 0 {
            assert_eq!((station, seat), (kept, [3; 586]));
        } else {
            let freed = Station { length: 0, number: 9, attached: 0, reserved: [0; 3] };
            assert_eq!((station, seat), (freed, [0; 586]));
        }
        let (mut station, mut seat) = (Station { number: u32::MAX, ..kept }, [3; 586]);
        assert_eq!(change(&mut station, &mut seat, &[]), 15);
        assert_eq!(seat, if attached == 0 { [3; 586] } else { [0; 586] });
        let mut station = kept;
        assert_eq!(change(&mut station, &mut seat, MIXED), 0);
        assert_eq!(
            station,
            Station { length: MIXED.len(), number: 10, attached: 1, reserved: [0; 3] }
        );
        assert_eq!(&seat[..MIXED.len()], MIXED);
    }
}

/// `void f(void)`: values, stack image, list and returned value are empty.
#[test]
fn an_empty_buffer_may_be_null() {
    let none = [b'K', b'C', b'B', 1, 0, 0, 0, 0, 0, 255, 0];
    let (d, n) = (none.as_ptr(), none.len());
    assert_eq!(unsafe { cb_check(null(), 0) }.number, 1);
    let (mut placed, mut gathered) = (Placed { vector_registers: 9 }, Gathered { hidden: 9 });
    let (mut registers, mut upper) = ([1; 176], [1; 128]);
    let refusal = unsafe {
        let (registers, upper) = (registers.as_mut_ptr(), upper.as_mut_ptr());
        cb_place_values(d, n, 7, null(), 0, registers, 176, upper, 128, null_mut(), 0, &mut placed)
    };
    assert_eq!((refusal.number, placed.vector_registers), (0, 0));
    assert_eq!((registers, upper), ([0; 176], [0; 128]));
    let refusal = unsafe {
        let (registers, upper) = (registers.as_ptr(), upper.as_ptr());
        cb_gather_values(d, n, registers, 176, upper, 128, null(), 0, null_mut(), 0, &mut gathered)
    };
    assert_eq!((refusal.number, gathered.hidden), (0, 0));
    // The upper images are lent where nothing is wide too.
    let refusal = unsafe {
        let registers = registers.as_ptr();
        cb_gather_values(d, n, registers, 176, null(), 0, null(), 0, null_mut(), 0, &mut gathered)
    };
    assert_eq!(refusal.number, 11);
    let (mut image, mut upper) = ([1; 80], [1; 16]);
    let refusal = unsafe {
        cb_put_returned(d, n, 7, null(), 0, image.as_mut_ptr(), 80, upper.as_mut_ptr(), 16)
    };
    assert_eq!((refusal.number, image, upper), (0, [0; 80], [0; 16]));
}
