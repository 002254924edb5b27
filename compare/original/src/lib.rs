//! The original expander, compiled unchanged from its own folder (see `build.rs`).

include!(concat!(env!("OUT_DIR"), "/modules.rs"));
