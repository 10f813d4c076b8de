//! The original U32 table against document 01 and against a second writing of it.
mod comparison;
mod differences;
mod document;
mod model;
mod stand_ins;
mod stored;
