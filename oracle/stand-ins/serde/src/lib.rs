//! Stand-in for `serde`: derives that produce nothing. Left out: everything; nothing is serialized here.
pub use stand_in_derive::{Deserialize, Serialize};
