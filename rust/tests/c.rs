//! The C header, by its example. Needs a C compiler: `cc`, or the one that CC names.

use std::path::PathBuf;
use std::process::Command;

#[test]
fn example() {
    let here = PathBuf::from(env!("CARGO_MANIFEST_DIR"));
    let folder = std::env::var_os("TEZHUKOR_LIB").map(PathBuf::from);
    let folder = folder.unwrap_or_else(|| here.join("../target/staticlib"));
    let program = std::env::temp_dir().join(format!("tezhukor-c-{}", std::process::id()));
    let built = Command::new(std::env::var("CC").unwrap_or("cc".to_string()))
        .args(["-std=c99", "-Wall", "-Wextra", "-Werror", "-pedantic", "-I"])
        .arg(here.join("include"))
        .arg(here.join("c/example.c"))
        .arg(folder.join("libanswers.a"))
        .arg("-o")
        .arg(&program)
        .status();
    assert!(built.expect("a C compiler").success());
    let output = Command::new(&program).output().expect("it runs");
    let _ = std::fs::remove_file(&program);
    assert!(output.status.success());
    let printed = String::from_utf8_lossy(&output.stdout);
    let meant = [
        "node 3 needs a pair",
        "tokens offset 1 35 station 1 start 36, pairs 1",
        "read back the same",
        "refused 15, read 1 node",
        "saved 32 bytes, compared 1",
        "stored 32 bytes, put back the same, loaded alike",
        "refused 19",
        "level 11, lean 0",
        "refused 12",
        "refused 2",
        "edited 7 nodes, as seen before",
        "node 3 needs a pair",
        "node 5 needs a pair",
        "the left operand's pair: depends, then never",
        "carried 1, pair of the callee 1",
        "carried again, left 9",
    ];
    assert_eq!(printed.lines().collect::<Vec<_>>(), meant);
}
