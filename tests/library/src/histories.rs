//! Random histories of calls, played through the library: of each command the refusal, and all that it lent or set, against the
//! independent layout. Behind each command the host writes another number that says attached, and rubbish into reserved bytes: neither
//! changes an answer, an accepted call writes 0 or 1 and zeros there, and a refused one leaves them, but for a change that detached.

use crate::batch::{About, Batch, Code, Thing};
use crate::records::{left, Fields, Part, Station, Walk, FILLING, REGISTERS, STACK};
use independent::history::{random_history, Command, Scene, Script, SLOTS};
use independent::moving::Image;
use independent::random::Random;
use independent::refusal::{told, Told};
use independent::station::{attach, change, detach};
use independent::walk::{finish, open, shown_piece, step, Piece};

pub fn ask(random: &mut Random, length: usize, batch: &mut Batch) {
    let mut script = Script::new();
    random_history(random, &mut script, length);
    let mut desk = Desk::new();
    for command in &script.commands {
        command.encode(&mut batch.commands);
        let name = desk.expect(command, batch);
        desk.write_own(random, batch);
        batch.end(name);
    }
    batch.about = About::History(script.commands);
}

const WALKS: [Thing; SLOTS] = [Thing::Walk0, Thing::Walk1, Thing::Walk2, Thing::Walk3];

/// Bytes that say that something is attached. The library writes 1 alone.
const ATTACHED: [u8; 4] = [1, 2, 128, 255];

/// What the commands work on, and the structs as a host of the library holds them, to the byte.
struct Desk {
    scene: Scene,
    station: Station,
    walks: [Walk; SLOTS],
}

impl Desk {
    fn new() -> Desk {
        let scene = Scene::default();
        Desk { station: scene.station.into(), walks: scene.walks.map(Walk::from), scene }
    }

    /// The host's own bytes, where nothing is looked at or any number says the same. The driver answers nothing.
    fn write_own(&mut self, random: &mut Random, batch: &mut Batch) {
        let (attached, rubbish) = (random.choose(&ATTACHED), random.byte());
        self.station.attached = if self.scene.station.attached { attached } else { 0 };
        self.station.reserved = [rubbish; 3];
        for walk in &mut self.walks {
            walk.reserved = [rubbish; 4];
        }
        batch.command(Code::HostBytes).byte(self.station.attached).byte(rubbish);
    }

    /// Does what the command says, and expects the same of the driver. Answers a name for it.
    fn expect(&mut self, command: &Command, batch: &mut Batch) -> &'static str {
        let Desk { scene, station, walks } = self;
        match command {
            Command::Attach(description) => {
                let seat = &mut scene.seat[..scene.lent];
                let answer = attach(&mut scene.station, seat, description);
                *station = left(*station, answer.map(|()| scene.station.into()));
                self.expect_station(told(&answer), batch);
                batch.buffer(Thing::Description, description);
                "cb_attach"
            }
            Command::Detach => {
                let answer = detach(&mut scene.station, &mut scene.seat[..scene.lent]);
                *station = left(*station, answer.map(|()| scene.station.into()));
                self.expect_station(told(&answer), batch);
                "cb_detach"
            }
            Command::Change(description) => {
                let before = scene.station;
                let answer = change(&mut scene.station, &mut scene.seat[..scene.lent], description);
                // The one call where a refusal writes: every byte of the struct where it freed something, and else none.
                if answer.is_ok() || scene.station != before {
                    *station = scene.station.into();
                }
                self.expect_station(told(&answer), batch);
                batch.buffer(Thing::Description, description);
                "cb_change"
            }
            Command::Open { slot } => {
                let answer = open(&scene.station, &scene.seat[..scene.lent]);
                scene.walks[*slot as usize] = answer.unwrap_or(scene.walks[*slot as usize]);
                let walk = &mut walks[*slot as usize];
                *walk = left(*walk, answer.map(Walk::from));
                self.expect_walk(told(&answer), *slot, batch);
                "cb_open_walk"
            }
            Command::Step { slot, asked, out } => {
                self.expect_step(*slot, *asked, *out, batch);
                "cb_step"
            }
            Command::Finish { slot, asked, out } => {
                self.expect_finish(*slot, asked, *out, batch);
                "cb_finish_walk"
            }
            Command::Show { slot, asked } | Command::Number { slot, asked } => {
                self.expect_shown(*slot, *asked, batch);
                "cb_show"
            }
            _ => {
                scene.answer(command);
                self.expect_set(command, batch);
                "what is set"
            }
        }
    }

    fn expect_station(&self, told: Told, batch: &mut Batch) {
        batch.told(told).record(Thing::Station, &self.station);
        batch.buffer(Thing::Seat, &self.scene.seat);
    }

    fn expect_walk(&self, told: Told, slot: u8, batch: &mut Batch) {
        self.expect_station(told, batch);
        batch.record(WALKS[slot as usize], &self.walks[slot as usize]);
    }

    fn expect_images(&self, told: Told, slot: u8, batch: &mut Batch) {
        self.expect_walk(told, slot, batch);
        batch.buffer(Thing::Registers, &self.scene.registers);
        batch.buffer(Thing::Stack, &self.scene.stack);
    }

    fn expect_step(&mut self, slot: u8, asked: u8, length: u16, batch: &mut Batch) {
        let Desk { scene, walks, .. } = self;
        let mut out = vec![FILLING; length as usize];
        let answer = step(
            &scene.station,
            &scene.seat[..scene.lent],
            &mut scene.walks[slot as usize],
            asked,
            &scene.registers,
            &scene.stack,
            &mut out,
        );
        let walk = &mut walks[slot as usize];
        *walk = left(*walk, answer.map(|()| scene.walks[slot as usize].into()));
        self.expect_images(told(&answer), slot, batch);
        batch.buffer(Thing::Out, &out);
    }

    fn expect_finish(&mut self, slot: u8, asked: &[u8], length: u16, batch: &mut Batch) {
        let Desk { scene, walks, .. } = self;
        let mut out = vec![FILLING; length as usize];
        let answer = finish(
            &scene.station,
            &scene.seat[..scene.lent],
            &mut scene.walks[slot as usize],
            asked,
            &scene.registers,
            &scene.stack,
            &mut out,
        );
        let walk = &mut walks[slot as usize];
        *walk = left(*walk, answer.map(|()| scene.walks[slot as usize].into()));
        self.expect_images(told(&answer), slot, batch);
        batch.buffer(Thing::Asked, asked);
        batch.buffer(Thing::Out, &out);
    }

    fn expect_shown(&self, slot: u8, asked: u8, batch: &mut Batch) {
        let scene = &self.scene;
        let answer = shown_piece(
            &scene.station,
            &scene.seat[..scene.lent],
            &scene.walks[slot as usize],
            asked,
            &scene.registers,
            &scene.stack,
        );
        self.expect_images(told(&answer), slot, batch);
        batch.record(Thing::Record, &left(Part::FILLED, answer.map(part_of)));
    }

    /// What the commands set that call nothing; a reset calls cb_new_station.
    fn expect_set(&mut self, command: &Command, batch: &mut Batch) {
        let Desk { scene, station, walks } = self;
        match command {
            Command::SeatLength(length) => batch.number("seat's length", u64::from(*length)),
            Command::StationByHand(_) => {
                *station = scene.station.into();
                batch.record(Thing::Station, station)
            }
            Command::WalkByHand { slot, .. } => {
                let walk = &mut walks[*slot as usize];
                *walk = scene.walks[*slot as usize].into();
                batch.record(WALKS[*slot as usize], walk)
            }
            Command::Registers(_) => batch.buffer(Thing::Registers, &scene.registers),
            Command::Stack(_) => batch.buffer(Thing::Stack, &scene.stack),
            Command::Reset => {
                *self = Desk::new();
                batch.record(Thing::Station, &self.station);
                batch.buffer(Thing::Seat, &self.scene.seat);
                for (thing, walk) in WALKS.into_iter().zip(&self.walks) {
                    batch.record(thing, walk);
                }
                batch
            }
            _ => batch.buffer(Thing::Seat, &scene.seat),
        };
    }
}

fn part_of(piece: Option<Piece>) -> Part {
    let Some(Piece { image, start, length }) = piece else {
        return Part::EMPTY;
    };
    let image = match image {
        Image::Registers => REGISTERS,
        Image::Stack => STACK,
        Image::Upper => unreachable!("an unnamed argument is never there"),
    };
    Part::new(image, start.0, length.0)
}
