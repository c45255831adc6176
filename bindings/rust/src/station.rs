//! A station with its seat, and walks over unnamed arguments.

use crate::moving::Images;
use crate::raw;
use crate::Refusal;

/// Bytes of a seat.
pub const SEAT: usize = 586;

/// A station and its seat in one, so that the two are always lent together and nothing else changes
/// them. What is promised of walks over any history of calls supposes just that.
#[derive(Clone)]
pub struct Station {
    station: raw::Station,
    seat: [u8; SEAT],
}

/// Where a walk over the unnamed arguments stands. It comes from [`Station::open`], and
/// [`Station::step`] and [`Station::finish`] alone move it on. After a detach or a change it is refused.
#[derive(Clone, Copy, Debug, PartialEq, Eq)]
pub struct Walk(raw::Walk);

impl Walk {
    /// The number of the next argument.
    pub fn position(&self) -> usize {
        self.0.position
    }
}

impl Default for Station {
    fn default() -> Station {
        Station::new()
    }
}

impl Station {
    /// A station that nothing was ever attached to.
    pub fn new() -> Station {
        // Safety: the call takes nothing.
        Station { station: unsafe { raw::cb_new_station() }, seat: [0; SEAT] }
    }

    pub fn is_attached(&self) -> bool {
        self.station.attached != 0
    }

    /// The description that is attached; empty where none is.
    pub fn description(&self) -> &[u8] {
        &self.seat[..self.station.length]
    }

    /// Refused 14 where something is attached, 15 after 4,294,967,295 attachments, 1 to 10.
    pub fn attach(&mut self, description: &[u8]) -> Result<(), Refusal> {
        let (seat, length) = (self.seat.as_mut_ptr(), self.seat.len());
        // Safety: station and seat are borrowed mutably, and each length is its slice's own.
        Refusal::of(unsafe {
            raw::cb_attach(&mut self.station, seat, length, description.as_ptr(), description.len())
        })
    }

    /// Refused 13 where nothing is attached. Every walk that was opened before is refused from now on.
    pub fn detach(&mut self) -> Result<(), Refusal> {
        let (seat, length) = (self.seat.as_mut_ptr(), self.seat.len());
        // Safety: as in `attach`.
        Refusal::of(unsafe { raw::cb_detach(&mut self.station, seat, length) })
    }

    /// Changes modules: detaches what is attached, if anything is, and attaches the description.
    /// Refused 15, 1 to 10. It is the one call where a refusal writes: nothing is attached then,
    /// and a walk that was opened before is refused 13; accepted, 17.
    pub fn change(&mut self, description: &[u8]) -> Result<(), Refusal> {
        let (seat, length) = (self.seat.as_mut_ptr(), self.seat.len());
        // Safety: as in `attach`; the seat is this station's own, so the description does not lie in it.
        Refusal::of(unsafe {
            raw::cb_change(&mut self.station, seat, length, description.as_ptr(), description.len())
        })
    }

    /// A walk before the first unnamed argument. Refused 13, 16 for a function that is not variadic.
    pub fn open(&self) -> Result<Walk, Refusal> {
        let mut walk = raw::Walk::default();
        // Safety: each pointer and length are those of one slice or struct.
        let answer = unsafe {
            raw::cb_open_walk(&self.station, self.seat.as_ptr(), self.seat.len(), &mut walk)
        };
        Refusal::of(answer)?;
        Ok(Walk(walk))
    }

    /// Copies the next argument, of the type with this number, into `out`, and moves the walk on.
    /// Refused 11 for a length, 13, 17 for a walk of another attachment, 18, 19 at the end, 20 for
    /// another type.
    pub fn step(
        &self,
        walk: &mut Walk,
        images: &Images,
        type_number: u8,
        out: &mut [u8],
    ) -> Result<(), Refusal> {
        // Safety: as in `open`; the walk and `out` are borrowed mutably.
        Refusal::of(unsafe {
            raw::cb_step(
                &self.station,
                self.seat.as_ptr(),
                self.seat.len(),
                &mut walk.0,
                images.registers.as_ptr(),
                images.registers.len(),
                images.stack.as_ptr(),
                images.stack.len(),
                type_number,
                out.as_mut_ptr(),
                out.len(),
            )
        })
    }

    /// Copies all arguments that are left, packed, into `out`, and moves the walk behind the last: what
    /// [`Station::step`] does for each of them. `types` are their type numbers, in order; every one is
    /// looked at before a byte is written. Refused 11 for a length, 13, 17, 18 as there, 24 for more
    /// or fewer types than arguments left, 20 where any is another type; 19 never.
    pub fn finish(
        &self,
        walk: &mut Walk,
        images: &Images,
        types: &[u8],
        out: &mut [u8],
    ) -> Result<(), Refusal> {
        // Safety: as in `step`.
        Refusal::of(unsafe {
            raw::cb_finish_walk(
                &self.station,
                self.seat.as_ptr(),
                self.seat.len(),
                &mut walk.0,
                images.registers.as_ptr(),
                images.registers.len(),
                images.stack.as_ptr(),
                images.stack.len(),
                types.as_ptr(),
                types.len(),
                out.as_mut_ptr(),
                out.len(),
            )
        })
    }

    /// The next argument as a part of one image, none where it lies in more than one part. Moves no
    /// walk. Refused as [`Station::step`].
    pub fn show<'images>(
        &self,
        walk: &Walk,
        images: &'images Images,
        type_number: u8,
    ) -> Result<Option<&'images [u8]>, Refusal> {
        let mut part = raw::Part::default();
        // Safety: as in `open`.
        let answer = unsafe {
            raw::cb_show(
                &self.station,
                self.seat.as_ptr(),
                self.seat.len(),
                &walk.0,
                images.registers.as_ptr(),
                images.registers.len(),
                images.stack.as_ptr(),
                images.stack.len(),
                type_number,
                &mut part,
            )
        };
        Refusal::of(answer)?;
        let bytes = part.offset..part.offset + part.length;
        Ok(match part.image {
            raw::REGISTERS => Some(&images.registers[bytes]),
            raw::STACK => Some(&images.stack[bytes]),
            _ => None,
        })
    }
}
