//! Document 01 a second time: an independent layout, written from documents 000,
//! 01 and 02 alone, for reading and not for speed. One module for each paragraph
//! of document 01, in its order, then document 02's, then what the tests need.

pub mod units;
pub mod refusal;

pub mod description;
pub mod types;
pub mod classes;
pub mod places;
pub mod moving;
pub mod station;
pub mod walk;
pub mod listing;

pub mod returning;
pub mod tidying;
pub mod needing;
pub mod declaration;
pub mod prototype;
pub mod old386;

pub mod random;
pub mod draft;
pub mod notation;
pub mod cases;
pub mod generator;
pub mod damage;
pub mod broken;
pub mod history;
pub mod mixture;
pub mod untidy;
pub mod texts;
pub mod lister;
pub mod reader;
pub mod vectors;
