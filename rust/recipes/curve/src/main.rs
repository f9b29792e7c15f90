//! Follows the curve that `build.rs` wrote.

include!(concat!(env!("OUT_DIR"), "/curve.rs"));

fn main() {
    // Without the pair it would be -1.
    println!("{}", drift(10.0, 7.0, 4.0));
}
