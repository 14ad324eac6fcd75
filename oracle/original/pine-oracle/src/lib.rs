//! A driver around the unchanged PINE modules of cloudflare/daphne: `build` puts mod.rs, flp.rs, vdaf.rs and msg.rs,
//! byte for byte, in `src/pine`. Nothing else of daphne is used.
#![allow(dead_code)] // the modules have items that the driver does not use

pub mod pine;

pub mod bench;
pub mod cut;
pub mod driver;
pub mod fields;
pub mod xofs;
