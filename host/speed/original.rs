//! The original under measurement: Rust's own hypot, and no count of certificates. Its text stays as it is
//! there, and is not laid out anew.

#[path = "../original/completed.rs"]
#[rustfmt::skip]
pub mod completed;
#[path = "../original/interpolation.rs"]
#[rustfmt::skip]
pub mod interpolation;
#[path = "../original/topp2_ra.rs"]
#[rustfmt::skip]
pub mod topp2_ra;

pub fn hypot(x: f64, y: f64) -> f64 {
    x.hypot(y)
}

fn asked() {}
