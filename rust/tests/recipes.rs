//! The programs of docs/RECIPES.md.

#[allow(dead_code)]
#[path = "../recipes/archive.rs"]
mod archive;
#[allow(dead_code)]
#[path = "../recipes/editor.rs"]
mod editor;
#[allow(dead_code)]
#[path = "../recipes/reads_back.rs"]
mod reads_back;

use std::path::{Path, PathBuf};
use std::process::Command;

/// The package is built, its rule with it, and run.
#[test]
fn a_generator() {
    let package = Path::new(env!("CARGO_MANIFEST_DIR")).join("recipes/curve/Cargo.toml");
    let target = Path::new(env!("CARGO_TARGET_TMPDIR")).join("curve");
    let output = Command::new(env!("CARGO"))
        .args(["run", "--quiet", "--offline", "--manifest-path"])
        .arg(package)
        .env("CARGO_TARGET_DIR", target)
        .output()
        .expect("cargo runs");
    let message = String::from_utf8_lossy(&output.stderr);
    assert_eq!(String::from_utf8_lossy(&output.stdout), "7\n", "{message}");
}

#[test]
fn an_editor() {
    let edits = "3 station - (start - grade)\nyes\n2 lead * offset\nno\n9 depth\n\
                 x y\n3 a +\n3\n2 lead\nyes\n";
    let mut output = Vec::new();
    editor::session("offset - station", edits.as_bytes(), &mut output).expect("a session");
    let meant = "\
offset - station
offset - (station - (start - grade))
2 come, 0 go
offset - (station - (start - grade))
lead * offset - (station - (start - grade))
0 come, 0 go
no: The named node is absent or is no expression.
no: invalid digit found in string
no: The plain grammar gives these tokens no reading.
no: an edit is a node and an expression
offset - (station - (start - grade))
lead - (station - (start - grade))
0 come, 0 go
lead - (station - (start - grade))
";
    assert_eq!(String::from_utf8_lossy(&output), meant);
}

#[test]
fn an_archive() {
    let folder = std::env::temp_dir().join(format!("tezhukor-{}-archive", std::process::id()));
    std::fs::create_dir_all(&folder).expect("a folder");
    let [sum, turned] = [[5, 0, 0, 2, 3, 0], [5, 0, 0, 3, 2, 0]];
    let [one, two] = [[26, 0, 0, 0, 0, 1], [26, 0, 0, 0, 0, 2]];
    for (name, nodes) in [
        ("a.tree", [sum, one, two].concat()),
        ("b.tree", [turned, two, one].concat()),
        ("c.tree", [sum, two, one].concat()),
        ("d.tree", [sum, one].concat()),
    ] {
        let file = [&[0, 3][..], &nodes].concat();
        std::fs::write(folder.join(name), file).expect("a file");
    }
    std::fs::create_dir_all(folder.join("e")).expect("a folder in it");
    let found = archive::doubles(&folder).expect("a folder that can be read");
    let named = |name: &str| -> PathBuf { folder.join(name) };
    let refused = vec![named("d.tree"), named("e")];
    assert_eq!(found, (vec![vec![named("a.tree"), named("b.tree")]], refused));
    std::fs::remove_dir_all(&folder).expect("the folder goes");
}

#[test]
fn a_step_of_a_build() {
    let [outer, inner] = [[5, 0, 1, 2, 3, 0], [5, 0, 1, 4, 5, 0]];
    let name = |symbol| [26, 0, 0, 0, 0, symbol];
    let nodes = [outer, name(1), inner, name(2), name(3)].concat();
    let sheet = [&[0, 5][..], &nodes].concat();
    let reads_back = |text| {
        let answer = reads_back::reads_back(&sheet, "offset\nstation\nstart\n", text);
        answer.map_err(|error| error.to_string())
    };
    assert_eq!(reads_back("offset - (station - start)"), Ok(true));
    assert_eq!(reads_back("(offset)-( (station-start) )"), Ok(true));
    assert_eq!(reads_back("offset - station - start"), Ok(false));
    assert_eq!(reads_back("offset - (start - station)"), Ok(false));
    assert_eq!(reads_back("offset - (station - end)"), Ok(false));
    assert_eq!(reads_back("offset -"), Ok(false));
    assert!(reads_back("offset - #").is_err());
    // Of a sheet without names nothing can be said.
    let unnamed = [&[0, 1][..], &name(0)].concat();
    let of_unnamed = |text| reads_back::reads_back(&unnamed, "offset\n", text).ok();
    assert_eq!(["offset", "station", "a"].map(of_unnamed), [Some(false); 3]);
}
