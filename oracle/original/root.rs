// The crate root of triton-isa, triton-air and triton-vm. The build script lays out each crate's folder `src` anew, the original's
// files beside our stand-ins for files that are not there, and writes `root.rs`: the module `root`, at `lib.rs` in that folder.
include!(concat!(env!("OUT_DIR"), "/root.rs"));

pub use root::*;

/// triton-air's `lib.rs` has a private trait of this name, which its tables name from the crate's root; since `lib.rs` is not the
/// root here, this one stands in for it, and `table.rs` ties the two together.
mod private {
    pub trait Seal {}
}
