//! Stand-in for `get-size2`: a derive that produces nothing. Left out: everything; no sizes are asked for here.
pub use stand_in_derive::GetSize;
