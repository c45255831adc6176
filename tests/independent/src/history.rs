//! Histories: commands over one station, one seat, four walk slots and one pair
//! of images; what each command answers; and random histories.

use crate::cases::hex_of_bytes;
use crate::description::{Model, MOST_ARGUMENTS, STRUCT};
use crate::generator::{random_description, Shape};
use crate::moving::{placing, Image, NARROW_ADDRESSES, REGISTER_IMAGE, UPPER_IMAGE};
use crate::places::accepted;
use crate::random::Random;
use crate::refusal::{told, Told};
use crate::station::{attach, change, detach, Station, SEAT};
use crate::types::code;
use crate::walk::{finish, open, show_number, shown_piece, step, Walk};

/// Room for the seat, so that too long a seat can be lent as well.
pub const SEAT_ROOM: usize = 600;
/// Walk slots.
pub const SLOTS: usize = 4;
/// What an out buffer is filled with before each step or finish.
pub const FILLING: u8 = 0xEE;

#[derive(Clone, Debug, PartialEq, Eq)]
pub enum Command {
    Reset,
    SeatLength(u16),
    Spoil { index: u16, value: u8 },
    StationByHand(Station),
    Registers(Vec<u8>),
    Stack(Vec<u8>),
    Attach(Vec<u8>),
    Detach,
    Change(Vec<u8>),
    Open { slot: u8 },
    Step { slot: u8, asked: u8, out: u16 },
    Finish { slot: u8, asked: Vec<u8>, out: u16 },
    Show { slot: u8, asked: u8 },
    Number { slot: u8, asked: u8 },
    WalkByHand { slot: u8, walk: Walk },
    FillSeat(u8),
}

fn push_part(bytes: &mut Vec<u8>, part: &[u8]) {
    bytes.extend((part.len() as u16).to_le_bytes());
    bytes.extend(part);
}

impl Command {
    /// One byte for the command, then its fields, little-endian.
    pub fn encode(&self, bytes: &mut Vec<u8>) {
        match self {
            Command::Reset => bytes.push(1),
            Command::SeatLength(length) => {
                bytes.push(2);
                bytes.extend(length.to_le_bytes());
            }
            Command::Spoil { index, value } => {
                bytes.push(3);
                bytes.extend(index.to_le_bytes());
                bytes.push(*value);
            }
            Command::StationByHand(station) => encode_station(bytes, station),
            Command::Registers(image) => {
                bytes.push(5);
                push_part(bytes, image);
            }
            Command::Stack(image) => {
                bytes.push(6);
                push_part(bytes, image);
            }
            Command::Attach(description) => {
                bytes.push(7);
                push_part(bytes, description);
            }
            Command::Detach => bytes.push(8),
            Command::Change(description) => {
                bytes.push(16);
                push_part(bytes, description);
            }
            _ => self.encode_walk_command(bytes),
        }
    }

    fn encode_walk_command(&self, bytes: &mut Vec<u8>) {
        match self {
            Command::Open { slot } => bytes.extend([9, *slot]),
            Command::Step { slot, asked, out } => {
                bytes.extend([10, *slot, *asked]);
                bytes.extend(out.to_le_bytes());
            }
            Command::Finish { slot, asked, out } => {
                bytes.extend([17, *slot]);
                push_part(bytes, asked);
                bytes.extend(out.to_le_bytes());
            }
            Command::Show { slot, asked } => bytes.extend([11, *slot, *asked]),
            Command::Number { slot, asked } => bytes.extend([12, *slot, *asked]),
            Command::WalkByHand { slot, walk } => encode_walk(bytes, *slot, walk),
            Command::FillSeat(value) => bytes.extend([14, *value]),
            _ => unreachable!("the other commands are encoded above"),
        }
    }
}

fn encode_station(bytes: &mut Vec<u8>, station: &Station) {
    bytes.extend([4, station.attached as u8]);
    bytes.extend((station.length as u16).to_le_bytes());
    bytes.extend(station.number.to_le_bytes());
}

fn encode_walk(bytes: &mut Vec<u8>, slot: u8, walk: &Walk) {
    bytes.extend([13, slot]);
    bytes.extend(walk.number.to_le_bytes());
    for field in [walk.position, walk.gp_offset, walk.fp_offset, walk.overflow] {
        bytes.extend(field.to_le_bytes());
    }
}

/// Everything that the commands work on.
#[derive(Clone, Debug)]
pub struct Scene {
    pub station: Station,
    pub seat: [u8; SEAT_ROOM],
    pub lent: usize,
    pub walks: [Walk; SLOTS],
    pub registers: Vec<u8>,
    pub stack: Vec<u8>,
}

impl Default for Scene {
    fn default() -> Scene {
        Scene {
            station: Station::default(),
            seat: [0; SEAT_ROOM],
            lent: SEAT,
            walks: [Walk::default(); SLOTS],
            registers: Vec::new(),
            stack: Vec::new(),
        }
    }
}

impl Scene {
    /// The sum of (index + 1) times byte over the seat's room, modulo 65521.
    fn seat_sum(&self) -> usize {
        let weighted =
            self.seat.iter().enumerate().map(|(index, &byte)| (index + 1) * byte as usize);
        weighted.sum::<usize>() % 65521
    }

    fn station_text(&self) -> String {
        let station = self.station;
        format!("station {} {} {}", station.attached as u8, station.length, station.number)
    }

    fn walk_text(&self, slot: u8) -> String {
        let walk = self.walks[slot as usize];
        format!(
            "walk {} {} {} {} {}",
            walk.number, walk.position, walk.gp_offset, walk.fp_offset, walk.overflow
        )
    }

    /// Does what the command says; answers the line to print, without its end.
    pub fn answer(&mut self, command: &Command) -> String {
        match command {
            Command::Reset => {
                *self = Scene::default();
                "reset".to_string()
            }
            Command::SeatLength(length) => {
                self.lent = *length as usize;
                format!("seat length {length}")
            }
            Command::Spoil { index, value } => {
                self.seat[*index as usize] = *value;
                format!("spoilt seat {}", self.seat_sum())
            }
            Command::FillSeat(value) => {
                self.seat = [*value; SEAT_ROOM];
                format!("filled seat {}", self.seat_sum())
            }
            Command::StationByHand(station) => {
                self.station = *station;
                self.station_text()
            }
            Command::Registers(image) => {
                self.registers = image.clone();
                format!("registers {}", image.len())
            }
            Command::Stack(image) => {
                self.stack = image.clone();
                format!("stack {}", image.len())
            }
            _ => self.answer_call(command),
        }
    }

    /// The calls of the paper.
    fn answer_call(&mut self, command: &Command) -> String {
        match command {
            Command::Attach(description) => {
                let seat = &mut self.seat[..self.lent];
                let answer = attach(&mut self.station, seat, description);
                format!("attach {}", self.after_station_call(told(&answer)))
            }
            Command::Detach => {
                let answer = detach(&mut self.station, &mut self.seat[..self.lent]);
                format!("detach {}", self.after_station_call(told(&answer)))
            }
            Command::Change(description) => {
                let seat = &mut self.seat[..self.lent];
                let answer = change(&mut self.station, seat, description);
                format!("change {}", self.after_station_call(told(&answer)))
            }
            Command::Open { slot } => self.answer_open(*slot),
            Command::Step { slot, asked, out } => self.answer_step(*slot, *asked, *out),
            Command::Finish { slot, asked, out } => self.answer_finish(*slot, asked, *out),
            Command::Show { slot, asked } => self.answer_show(*slot, *asked),
            Command::Number { slot, asked } => self.answer_number(*slot, *asked),
            Command::WalkByHand { slot, walk } => {
                self.walks[*slot as usize] = *walk;
                self.walk_text(*slot)
            }
            _ => unreachable!("the other commands are answered above"),
        }
    }

    fn after_station_call(&self, told: Told) -> String {
        format!("{told} {} seat {}", self.station_text(), self.seat_sum())
    }

    fn answer_open(&mut self, slot: u8) -> String {
        let answer = open(&self.station, &self.seat[..self.lent]);
        if let Ok(walk) = answer {
            self.walks[slot as usize] = walk;
        }
        format!("open {} {}", told(&answer), self.walk_text(slot))
    }

    fn answer_step(&mut self, slot: u8, asked: u8, length: u16) -> String {
        let mut out = vec![FILLING; length as usize];
        let answer = step(
            &self.station,
            &self.seat[..self.lent],
            &mut self.walks[slot as usize],
            asked,
            &self.registers,
            &self.stack,
            &mut out,
        );
        let told = told(&answer);
        format!("step {told} {} {}", word_and_hex("out", &out), self.walk_text(slot))
    }

    fn answer_finish(&mut self, slot: u8, asked: &[u8], length: u16) -> String {
        let mut out = vec![FILLING; length as usize];
        let answer = finish(
            &self.station,
            &self.seat[..self.lent],
            &mut self.walks[slot as usize],
            asked,
            &self.registers,
            &self.stack,
            &mut out,
        );
        let told = told(&answer);
        format!("finish {told} {} {}", word_and_hex("out", &out), self.walk_text(slot))
    }

    fn answer_show(&self, slot: u8, asked: u8) -> String {
        let piece = shown_piece(
            &self.station,
            &self.seat[..self.lent],
            &self.walks[slot as usize],
            asked,
            &self.registers,
            &self.stack,
        );
        let Ok(Some(piece)) = piece else {
            return "show none".to_string();
        };
        let (name, image) = match piece.image {
            Image::Registers => ("registers", &self.registers),
            Image::Stack => ("stack", &self.stack),
            Image::Upper => unreachable!("an unnamed argument is never there"),
        };
        let part = &image[piece.start.0..piece.start.0 + piece.length.0];
        format!("show {name} {} {}", piece.start.0, word_and_hex("part", part))
    }

    fn answer_number(&self, slot: u8, asked: u8) -> String {
        let told = show_number(
            &self.station,
            &self.seat[..self.lent],
            &self.walks[slot as usize],
            asked,
            &self.registers,
            &self.stack,
        );
        format!("number {told}")
    }
}

/// A word and, where there are bytes, a blank and the bytes in hex.
pub fn word_and_hex(word: &str, bytes: &[u8]) -> String {
    if bytes.is_empty() {
        word.to_string()
    } else {
        format!("{word} {}", hex_of_bytes(bytes))
    }
}

/// Commands that are written while the scene that they lead to is kept, so that
/// the next ones can be right, or wrong on purpose.
#[derive(Default)]
pub struct Script {
    pub scene: Scene,
    pub commands: Vec<Command>,
    pub lines: Vec<String>,
}

impl Script {
    pub fn new() -> Script {
        Script::default()
    }

    pub fn add(&mut self, command: Command) {
        let line = self.scene.answer(&command);
        self.lines.push(line);
        self.commands.push(command);
    }

    /// Images placed for a description, with some values.
    pub fn place_images(&mut self, random: &mut Random, description: &[u8]) {
        let (registers, stack) = random_images(random, description);
        self.add(Command::Registers(registers));
        self.add(Command::Stack(stack));
    }

    pub fn attach(&mut self, random: &mut Random, description: &[u8]) {
        self.add(Command::Attach(description.to_vec()));
        self.place_images(random, description);
    }

    pub fn change(&mut self, random: &mut Random, description: &[u8]) {
        self.add(Command::Change(description.to_vec()));
        self.place_images(random, description);
    }

    /// The type that the walk in a slot should ask next, and its size.
    pub fn next_type(&self, slot: u8) -> Option<(u8, u16)> {
        let seat = &self.scene.seat[..self.scene.station.length.min(SEAT)];
        let accepted = accepted(seat).ok()?;
        let position = usize::try_from(self.scene.walks[slot as usize].position).ok()?;
        let placement = accepted.layout.placements.get(position)?;
        Some((placement.type_number, placement.size.0 as u16))
    }

    /// The types that the walk in a slot should ask to its end, and all their bytes.
    pub fn rest(&self, slot: u8) -> (Vec<u8>, u16) {
        let seat = &self.scene.seat[..self.scene.station.length.min(SEAT)];
        let (Ok(accepted), Ok(position)) =
            (accepted(seat), usize::try_from(self.scene.walks[slot as usize].position))
        else {
            return (vec![], 0);
        };
        let rest = accepted.layout.placements.get(position..).unwrap_or_default();
        let bytes: usize = rest.iter().map(|placement| placement.size.0).sum();
        (rest.iter().map(|placement| placement.type_number).collect(), bytes as u16)
    }

    /// All the rest at once, with the right types and bytes.
    pub fn finish_right(&mut self, slot: u8) {
        let (asked, out) = self.rest(slot);
        self.add(Command::Finish { slot, asked, out });
    }

    /// Show, its number and a right step.
    pub fn step_right(&mut self, slot: u8) {
        let (asked, out) = self.next_type(slot).unwrap_or((0, 4));
        self.add(Command::Show { slot, asked });
        self.add(Command::Number { slot, asked });
        self.add(Command::Step { slot, asked, out });
    }

    /// From open to the step that finds position A.
    pub fn walk_whole(&mut self, slot: u8) {
        self.add(Command::Open { slot });
        // A walk that does not move on would never come to its end.
        for _ in 0..MOST_ARGUMENTS {
            if self.next_type(slot).is_none() {
                break;
            }
            self.step_right(slot);
        }
        self.step_right(slot);
    }
}

/// Values for a description: any bytes, but 0 or 1 for _Bool arguments.
pub fn random_values(random: &mut Random, description: &[u8]) -> Vec<u8> {
    let accepted = accepted(description).expect("values are drawn for accepted ones");
    let mut values = Vec::new();
    for placement in &accepted.layout.placements {
        if accepted.types.is_basic(placement.type_number, code::BOOL) {
            values.push(random.below(2) as u8);
        } else {
            values.extend(random.bytes(placement.size.0));
        }
    }
    values
}

/// Addresses on both sides of what ILP32 admits.
pub const ADDRESSES: [u64; 4] = [0, NARROW_ADDRESSES - 1, NARROW_ADDRESSES, u64::MAX];

/// A hidden address that the model of an accepted description admits.
pub fn random_address(random: &mut Random, description: &[u8]) -> u64 {
    let accepted = accepted(description).expect("addresses are drawn for accepted ones");
    match accepted.types.description().model() {
        Model::Lp64 => random.next(),
        Model::Ilp32 => random.next() % NARROW_ADDRESSES,
    }
}

/// Any hidden address, those that ILP32 admits half of the time.
pub fn any_address(random: &mut Random) -> u64 {
    match random.below(3) {
        0 => random.choose(&ADDRESSES),
        1 => random.next() % NARROW_ADDRESSES,
        _ => random.next(),
    }
}

/// Register image and stack image as placing leaves them for random values: what is
/// in the upper image belongs to named arguments, and no walk sees it.
pub fn random_images(random: &mut Random, description: &[u8]) -> (Vec<u8>, Vec<u8>) {
    let values = random_values(random, description);
    let area = accepted(description).expect("accepted").layout.area.0;
    let mut registers = vec![0; REGISTER_IMAGE];
    let mut stack = vec![0; area];
    let address = random_address(random, description);
    placing(description, address, &values, &mut registers, &mut [0; UPPER_IMAGE], &mut stack)
        .expect("right lengths and values");
    (registers, stack)
}

/// Shape of the descriptions in random histories: images stay small.
const HISTORY: Shape = Shape { most_types: 10, most_arguments: 9, most_members: 4, largest: 40 };

fn variadic_description(random: &mut Random) -> Vec<u8> {
    loop {
        let bytes = random_description(random, HISTORY);
        let unnamed = bytes[8] - bytes[7];
        let small = accepted(&bytes).is_ok_and(|accepted| accepted.layout.area.0 <= 160);
        if (unnamed >= 2 || random.one_in(12)) && small {
            return bytes;
        }
    }
}

/// One random history of about `length` commands, beginning with a reset.
pub fn random_history(random: &mut Random, script: &mut Script, length: usize) {
    script.add(Command::Reset);
    script.add(Command::FillSeat(random.byte()));
    let descriptions: Vec<Vec<u8>> = (0..3).map(|_| variadic_description(random)).collect();
    for _ in 0..length {
        match random.below(20) {
            0 => {
                let description = random.choose(&[0, 1, 2]);
                script.attach(random, &descriptions[description]);
            }
            1 => {
                let description = random.choose(&[0, 1, 2]);
                script.change(random, &descriptions[description]);
            }
            2 if random.one_in(3) => script.add(Command::Detach),
            2..=6 => script.add(Command::Open { slot: random.below(SLOTS) as u8 }),
            7..=12 => {
                let slot = live_slot(random, script);
                script.step_right(slot);
            }
            13 => {
                let slot = live_slot(random, script);
                script.finish_right(slot);
            }
            14..=16 => wrong_question(random, script),
            17 => wrong_record(random, script),
            18 => {
                wrong_scene(random, script);
                wrong_question(random, script);
                mend_scene(random, script, &descriptions);
            }
            _ => mend_scene(random, script, &descriptions),
        }
    }
}

/// Mostly a slot whose walk is of the attachment of now, where there is one.
fn live_slot(random: &mut Random, script: &Script) -> u8 {
    let number = script.scene.station.number;
    let is_live = |slot: &u8| script.scene.walks[*slot as usize].number == number;
    let live: Vec<u8> = (0..SLOTS as u8).filter(is_live).collect();
    if live.is_empty() || random.one_in(8) {
        return random.below(SLOTS) as u8;
    }
    random.choose(&live)
}

/// A step, show, number or finish with a wrong type, number of types or out length.
fn wrong_question(random: &mut Random, script: &mut Script) {
    let slot = live_slot(random, script);
    if random.one_in(3) {
        wrong_rest(random, script, slot);
        return;
    }
    let (right, size) = script.next_type(slot).unwrap_or((0, 8));
    let any = random.byte();
    let asked = random.choose(&[right, right.wrapping_add(1), 255, any]);
    let out = random.choose(&[size, size + 1, size.saturating_sub(1), 0, 8]);
    script.add(Command::Step { slot, asked, out });
    script.add(Command::Show { slot, asked });
    script.add(Command::Number { slot, asked });
}

/// All the rest with one wrong type, one type too few or too many, or a wrong out
/// length, or two of these.
fn wrong_rest(random: &mut Random, script: &mut Script, slot: u8) {
    let (mut asked, mut out) = script.rest(slot);
    for _ in 0..random.between(1, 2) {
        match random.below(4) {
            0 if !asked.is_empty() => {
                let at = random.below(asked.len());
                asked[at] = random.choose(&[asked[at].wrapping_add(1), 0, 255]);
            }
            1 => asked.push(random.choose(&[0, 1, 255])),
            2 => drop(asked.pop()),
            _ => out = random.choose(&[out + 1, out.saturating_sub(1), 0, 8]),
        }
    }
    script.add(Command::Finish { slot, asked, out });
}

/// A walk record with one field changed, asked once.
fn wrong_record(random: &mut Random, script: &mut Script) {
    let slot = live_slot(random, script);
    let mut walk = script.scene.walks[slot as usize];
    let change = random.choose(&[1, 8, 16, u64::MAX, u64::MAX - 7, 1 << 32]);
    match random.below(5) {
        0 => walk.number = walk.number.wrapping_add(random.choose(&[1, u32::MAX])),
        1 => walk.position = walk.position.wrapping_add(change),
        2 => walk.gp_offset = walk.gp_offset.wrapping_add(change),
        3 => walk.fp_offset = walk.fp_offset.wrapping_add(change),
        _ => walk.overflow = walk.overflow.wrapping_add(change),
    }
    script.add(Command::WalkByHand { slot, walk });
    if random.one_in(2) {
        script.finish_right(slot);
    } else {
        script.step_right(slot);
    }
}

/// A seat, station or image that no call would leave so.
fn wrong_scene(random: &mut Random, script: &mut Script) {
    match random.below(6) {
        0 => script.add(Command::SeatLength(random.choose(&[0, 585, 587, 600]))),
        1 => {
            let index = random.below(60) as u16;
            let value = random.choose(&[0, 1, STRUCT, 64, 255]);
            script.add(Command::Spoil { index, value });
        }
        2 => {
            let length = random.choose(&[0, 10, 11, 586, 587, 65535]);
            let attached = random.one_in(2);
            let number = random.choose(&[0, 1, 2, u32::MAX - 1, u32::MAX]);
            script.add(Command::StationByHand(Station { attached, length, number }));
        }
        3 => {
            let length = random.choose(&[0, 175, 177]);
            script.add(Command::Registers(random.bytes(length)));
        }
        4 => {
            let length = random.below(40);
            script.add(Command::Stack(random.bytes(length)));
        }
        _ => {
            let mut description = variadic_description(random);
            let at = random.below(description.len());
            description[at] ^= 1 << random.below(8);
            if random.one_in(2) {
                script.add(Command::Attach(description));
            } else {
                script.add(Command::Change(description));
            }
        }
    }
}

/// Sets things right again, so that a history does not stay refused for ever.
fn mend_scene(random: &mut Random, script: &mut Script, descriptions: &[Vec<u8>]) {
    script.add(Command::SeatLength(SEAT as u16));
    if script.scene.station.length > SEAT || script.scene.station.number >= u32::MAX - 1 {
        let number = random.below(9) as u32;
        script.add(Command::StationByHand(Station { attached: false, length: 0, number }));
    }
    let index = random.below(descriptions.len());
    if random.one_in(2) {
        script.change(random, &descriptions[index]);
    } else {
        script.add(Command::Detach);
        script.attach(random, &descriptions[index]);
    }
    script.add(Command::Open { slot: random.below(SLOTS) as u8 });
}
