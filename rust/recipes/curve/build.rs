//! Makes a function of a rule sheet: the tree is built, and its text is what is compiled.

use std::error::Error;
use std::path::PathBuf;
use tezhukor::build::{binary, path, Context, Op};
use tezhukor::text::Symbols;

fn main() -> Result<(), Box<dyn Error>> {
    println!("cargo:rerun-if-changed=build.rs");
    let mut symbols = Symbols::default();
    let names = ["offset", "station", "start"];
    let [offset, station, start] = names.map(|name| path(symbols.symbol(name)));
    let distance = binary(Op::Sub, station, start);
    let tree = binary(Op::Sub, offset, distance).tree(Context::None)?;
    let drift = tree.to_rust(&symbols.names()?)?;
    let source = format!("fn drift(offset: f64, station: f64, start: f64) -> f64 {{ {drift} }}\n");
    std::fs::write(PathBuf::from(std::env::var("OUT_DIR")?).join("curve.rs"), source)?;
    Ok(())
}
