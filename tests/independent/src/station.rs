//! "Station and walk", its first half: attach and detach; and of document 02
//! request 2026-09, "One call to change modules".

use crate::description::LONGEST;
use crate::places::accepted;
use crate::refusal::Refusal;

/// "The seat is 586 lent bytes."
pub const SEAT: usize = LONGEST;

/// "The station holds attached or not, a length and an attachment number, 0 at
/// first."
#[derive(Clone, Copy, Debug, Default, PartialEq, Eq)]
pub struct Station {
    pub attached: bool,
    pub length: usize,
    pub number: u32,
}

/// The early 11 of every call on a station: "a lent buffer of wrong length, ...
/// a station length over 586", attached or not.
pub fn check_seat(station: &Station, seat: &[u8]) -> Result<(), Refusal> {
    if seat.len() != SEAT || station.length > LONGEST {
        return Err(Refusal::WrongLength);
    }
    Ok(())
}

/// "Attach: 11, 14, 15, 1..10." It "counts the number up by one and fills the
/// seat with the description, then zeros".
pub fn attach(station: &mut Station, seat: &mut [u8], description: &[u8]) -> Result<(), Refusal> {
    check_seat(station, seat)?;
    if station.attached {
        return Err(Refusal::AlreadyAttached);
    }
    if station.number == u32::MAX {
        return Err(Refusal::NumbersUsedUp);
    }
    accepted(description)?;
    seat.fill(0);
    seat[..description.len()].copy_from_slice(description);
    *station = Station { attached: true, length: description.len(), number: station.number + 1 };
    Ok(())
}

/// "Detach: 11, 13." It "zeros seat and length and keeps the number".
pub fn detach(station: &mut Station, seat: &mut [u8]) -> Result<(), Refusal> {
    check_seat(station, seat)?;
    if !station.attached {
        return Err(Refusal::NothingAttached);
    }
    seat.fill(0);
    station.attached = false;
    station.length = 0;
    Ok(())
}

/// Request 2026-09: "Refusals: 11 first, then those of attach without 14." "If
/// the new description is refused, or the number is used up, the station ends
/// detached, with a zero seat if one was attached; this is the one call where a
/// refusal writes." Written out, and not as a detach before an attach: that the
/// two are equal is for the tests to say.
pub fn change(station: &mut Station, seat: &mut [u8], description: &[u8]) -> Result<(), Refusal> {
    check_seat(station, seat)?;
    if station.attached {
        seat.fill(0);
        *station = Station { attached: false, length: 0, number: station.number };
    }
    if station.number == u32::MAX {
        return Err(Refusal::NumbersUsedUp);
    }
    accepted(description)?;
    seat.fill(0);
    seat[..description.len()].copy_from_slice(description);
    *station = Station { attached: true, length: description.len(), number: station.number + 1 };
    Ok(())
}
