//! "All the rest at once" (02, 2026-05): its order of refusals, and that it equals
//! stepping one by one.

use independent::cases::{bytes_of_hex, LISTER};
use independent::history::{random_history, random_images, random_values, Command, Scene, Script};
use independent::notation::description;
use independent::places::accepted;
use independent::random::Random;
use independent::refusal::Refusal;
use independent::station::{attach, Station, SEAT};
use independent::walk::{finish, open, step, Walk};

/// All the rest on the lister's case, attached as number 1, into a buffer of so many
/// bytes.
fn finished(walk: Walk, asked: &[u8], stack: usize, out: usize) -> Result<(), Refusal> {
    let bytes = bytes_of_hex(LISTER);
    let mut station = Station::default();
    let mut seat = vec![0; SEAT];
    attach(&mut station, &mut seat, &bytes).expect("accepted");
    let (registers, full) = random_images(&mut Random::new(1), &bytes);
    let (mut walk, before) = (walk, walk);
    let mut buffer = vec![0xEE; out];
    let answer = finish(&station, &seat, &mut walk, asked, &registers, &full[..stack], &mut buffer);
    if answer.is_err() {
        assert_eq!(walk, before, "a refusal moves no walk");
        assert!(buffer.iter().all(|&byte| byte == 0xEE), "a refusal writes nothing");
    }
    answer
}

const RIGHT: Walk = Walk { number: 1, position: 3, gp_offset: 16, fp_offset: 64, overflow: 16 };
const END: Walk = Walk { number: 1, position: 5, gp_offset: 32, fp_offset: 80, overflow: 16 };

/// "as for a step, but a number of types other than those remaining is 24, after 18,
/// and 19 never occurs"
#[test]
fn all_the_rest_keeps_its_order() {
    assert_eq!(finished(RIGHT, &[1, 5], 16, 24), Ok(()));
    let other = Walk { number: 0, position: 9, ..RIGHT };
    assert_eq!(finished(other, &[9], 0, 0), Err(Refusal::OtherAttachment));
    for astray in [Walk { gp_offset: 24, ..RIGHT }, Walk { gp_offset: 24, ..END }] {
        assert_eq!(finished(astray, &[9], 0, 0), Err(Refusal::WrongRecord));
    }
    let named = Walk { position: 2, overflow: 0, ..RIGHT };
    assert_eq!(finished(named, &[4, 1, 5], 16, 40), Err(Refusal::WrongRecord));
    for asked in [&[][..], &[1], &[9], &[1, 5, 0], &[9, 9, 9], &[0; 65]] {
        assert_eq!(finished(RIGHT, asked, 0, 0), Err(Refusal::WrongTypeCount));
    }
    for asked in [[0, 5], [1, 0], [5, 1], [255, 255]] {
        assert_eq!(finished(RIGHT, &asked, 0, 0), Err(Refusal::OtherType));
        assert_eq!(finished(RIGHT, &asked, 16, 24), Err(Refusal::OtherType));
    }
    for (stack, out) in [(15, 24), (0, 24), (16, 23), (16, 25), (16, 0), (16, 8)] {
        assert_eq!(finished(RIGHT, &[1, 5], stack, out), Err(Refusal::WrongLength));
    }
}

/// "no types with none remaining is accepted"; the lengths are looked at there too.
#[test]
fn at_the_end_no_types_are_asked() {
    assert_eq!(finished(END, &[], 16, 0), Ok(()));
    assert_eq!(finished(END, &[5], 16, 16), Err(Refusal::WrongTypeCount));
    assert_eq!(finished(END, &[], 15, 0), Err(Refusal::WrongLength));
    assert_eq!(finished(END, &[], 16, 1), Err(Refusal::WrongLength));
}

#[test]
fn the_lengths_and_the_station_come_first() {
    let bytes = description("void: int, ..., long");
    let (registers, stack) = random_images(&mut Random::new(2), &bytes);
    let mut station = Station::default();
    let mut seat = vec![0; SEAT];
    let all = |station: &Station, seat: &[u8], registers: &[u8]| {
        let mut walk = Walk::default();
        finish(station, seat, &mut walk, &[9], registers, &stack, &mut [])
    };
    assert_eq!(all(&station, &seat, &registers), Err(Refusal::NothingAttached));
    assert_eq!(all(&station, &seat[..SEAT - 1], &registers), Err(Refusal::WrongLength));
    assert_eq!(all(&station, &seat, &registers[..175]), Err(Refusal::WrongLength));
    attach(&mut station, &mut seat, &bytes).expect("accepted");
    assert_eq!(all(&station, &seat, &registers[..175]), Err(Refusal::WrongLength));
    assert_eq!(all(&station, &seat, &registers), Err(Refusal::OtherAttachment));
    seat[0] = 0;
    assert_eq!(all(&station, &seat, &registers), Err(Refusal::WrongMark));
    station.length = SEAT + 1;
    assert_eq!(all(&station, &seat, &registers), Err(Refusal::WrongLength));
}

/// From open on, all the rest is the unnamed arguments' values, packed.
#[test]
fn all_the_rest_is_what_was_placed() {
    let mut random = Random::new(3);
    for text in [
        "void: int, ..., int, long_double, double, struct{double, long}, m128, m256",
        "struct{long[3]}: long, long, long, long, long, ..., int128, long, struct{float, int}",
        "void: ..., struct{char[5]}, complex_long_double, complex_float, pointer",
    ] {
        let bytes = description(text);
        let (registers, stack) = random_images(&mut random.clone(), &bytes);
        let values = random_values(&mut random, &bytes);
        let mut station = Station::default();
        let mut seat = vec![0; SEAT];
        attach(&mut station, &mut seat, &bytes).expect("accepted");
        let mut walk = open(&station, &seat).expect("variadic");
        let rest =
            accepted(&bytes).expect("accepted").layout.placements[bytes[7] as usize..].to_vec();
        let asked: Vec<u8> = rest.iter().map(|placement| placement.type_number).collect();
        let mut out = vec![0; rest.iter().map(|placement| placement.size.0).sum()];
        let answer = finish(&station, &seat, &mut walk, &asked, &registers, &stack, &mut out);
        assert_eq!((answer, walk.position), (Ok(()), u64::from(bytes[8])));
        assert_eq!(out, values[values.len() - out.len()..]);
    }
}

/// What steps one by one leave: the first refusal, the walk and the bytes.
fn stepped(scene: &Scene, slot: u8, asked: &[u8]) -> (Result<(), Refusal>, Walk, Vec<u8>) {
    let mut walk = scene.walks[slot as usize];
    let mut all = Vec::new();
    let seat = &scene.seat[..scene.lent];
    let sizes: Vec<usize> = accepted(&seat[..scene.station.length.min(seat.len())])
        .map(|accepted| accepted.layout.placements.iter().map(|one| one.size.0).collect())
        .unwrap_or_default();
    for &asked in asked {
        let size = usize::try_from(walk.position).ok().and_then(|at| sizes.get(at).copied());
        let mut out = vec![0; size.unwrap_or(0)];
        let (registers, stack) = (&scene.registers, &scene.stack);
        let answer = step(&scene.station, seat, &mut walk, asked, registers, stack, &mut out);
        if answer.is_err() {
            return (answer, walk, all);
        }
        all.extend(out);
    }
    (Ok(()), walk, all)
}

/// What steps with right out buffers answer where all the rest is refused: 24 and 11
/// say nothing of them, behind 20 they may find a wrong stack image first, and else it
/// is the same refusal.
fn like_a_step(refusal: Refusal, steps: Result<(), Refusal>) -> bool {
    match refusal {
        Refusal::WrongTypeCount | Refusal::WrongLength => true,
        Refusal::OtherType => [Err(Refusal::OtherType), Err(Refusal::WrongLength)].contains(&steps),
        _ => steps == Err(refusal),
    }
}

/// "Where it accepts, its answer, end record and bytes equal stepping one by one."
#[test]
fn all_the_rest_equals_stepping_one_by_one() {
    let mut random = Random::new(205);
    let (mut accepted, mut refused) = (0, 0);
    for _ in 0..400 {
        let mut script = Script::new();
        random_history(&mut random, &mut script, 60);
        let mut scene = Scene::default();
        for command in &script.commands {
            if let Command::Finish { slot, asked, out } = command {
                let steps = stepped(&scene, *slot, asked);
                let (mut walk, before) = (scene.walks[*slot as usize], scene.walks[*slot as usize]);
                let mut buffer = vec![0xEE; *out as usize];
                let (registers, stack) = (&scene.registers, &scene.stack);
                let seat = &scene.seat[..scene.lent];
                let answer =
                    finish(&scene.station, seat, &mut walk, asked, registers, stack, &mut buffer);
                match answer {
                    Ok(()) => {
                        assert_eq!((answer, walk, buffer), steps);
                        accepted += usize::from(!asked.is_empty());
                    }
                    Err(refusal) => {
                        assert!(asked.is_empty() || like_a_step(refusal, steps.0));
                        assert_eq!(walk, before);
                        assert!(buffer.iter().all(|&byte| byte == 0xEE));
                        refused += 1;
                    }
                }
            }
            scene.answer(command);
        }
    }
    assert!(accepted > 200 && refused > 500, "{accepted} accepted, {refused} refused");
}
