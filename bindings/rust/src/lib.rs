//! Safe types over the call bridge (`callbridge.h`).
//!
//! A *description* (KCB) is a byte string that says which types a foreign function takes. This crate
//! says where each argument of a call goes by the System V AMD64 rules, moves the bytes of all values
//! into a register image, an upper image (bytes 16 to 31 of ymm0 to ymm7) and a stack image and back,
//! and walks unnamed arguments as `va_arg` does.
//! Descriptions may come from strangers: whatever breaks the rules is a [`Refusal`], and changes
//! nothing.
//!
//! ```
//! // void f(int, double)
//! let mut builder = callbridge::Builder::new();
//! let int = builder.basic(callbridge::Basic::Int);
//! let double = builder.basic(callbridge::Basic::Double);
//! let description = builder.argument(int).argument(double).finish()?;
//!
//! let (layout, placements) = callbridge::lay_out(&description)?;
//! assert_eq!(layout.area, 0);
//! assert_eq!(placements[0].place.to_string(), "rdi");
//! assert_eq!(placements[1].place.to_string(), "xmm0");
//!
//! let mut images = callbridge::Images::new(&layout);
//! let mut values = 7i32.to_le_bytes().to_vec();
//! values.extend(0.5f64.to_le_bytes());
//! let vectors = callbridge::place(&description, 0, &values, &mut images)?;
//! assert_eq!(vectors, 1);
//! assert_eq!(images.registers[0], 7);
//! # Ok::<(), callbridge::Refusal>(())
//! ```
//!
//! A module that comes and goes has a [`Station`], and the unnamed arguments of its call are walked
//! there. A walk ends when its module leaves:
//!
//! ```
//! use callbridge::{Images, Station};
//!
//! // int f(int, ...), called with a double behind the int: type 0 is int, type 1 double.
//! let description = [b'K', b'C', b'B', 1, 0, 2, 1, 1, 2, 0, 0, 0, 3, 0, 0, 0, 7, 0, 0, 0, 1];
//! let layout = callbridge::layout(&description)?;
//! let mut values = 7i32.to_le_bytes().to_vec();
//! values.extend(0.5f64.to_le_bytes());
//! let mut images = Images::new(&layout);
//! callbridge::place(&description, 0, &values, &mut images)?;
//!
//! let mut station = Station::new();
//! station.attach(&description)?;
//! let mut walk = station.open()?;
//! let early = walk;
//! let mut level = [0; 8];
//! station.step(&mut walk, &images, 1, &mut level)?;
//! assert_eq!(f64::from_le_bytes(level), 0.5);
//!
//! let mut again = early; // or all the rest at once, by the types that are expected
//! station.finish(&mut again, &images, &[1], &mut level)?;
//! assert_eq!(again, walk);
//!
//! station.change(&description)?; // one module leaves and another comes
//! let refusal = station.show(&early, &images, 1).unwrap_err();
//! assert_eq!(refusal.to_string(), "refused 17: the walk is of another attachment");
//! # Ok::<(), callbridge::Refusal>(())
//! ```

pub mod raw;

mod builder;
mod layout;
mod moving;
mod refusal;
mod station;
mod types;

pub use builder::{Basic, Builder, VOID};
pub use layout::{
    lay_out, layout, needs_stack, Layout, Place, Placement, Register, Returned, StackNeed,
};
pub use moving::{
    gather, place, put_returned, take_returned, Images, ReturnImages, REGISTER_IMAGE, RETURN_IMAGE,
    RETURN_UPPER, UPPER_IMAGE,
};
pub use refusal::Refusal;
pub use station::{Station, Walk, SEAT};
pub use types::{check, classes, extent, listing, members, offsets, tidy, Class, Extent};

/// The version of the library that is linked.
pub fn version() -> u32 {
    // Safety: the call takes nothing.
    unsafe { raw::cb_version() }
}
