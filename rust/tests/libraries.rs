//! `tools/libraries`, with a prover that proves nothing in place of rt: what is printed, what
//! is in the log, and what is told where it fails.

#![cfg(unix)]

use std::os::unix::fs::PermissionsExt;
use std::path::{Path, PathBuf};
use std::process::{Command, Output};

/// Prints what `rt lib` prints, and writes the archive; for the library that FAIL names it fails.
const PROVER: &str = "#!/usr/bin/env bash
name=${PWD##*/}
proved() {
    echo \"fn $1::one: proved\"
    echo \"crate $1: modules loaded=0 checked=8\"
    echo 'logic=proved functions=1'
}
if [ \"$name\" = answers ]; then
    proved bools
    proved laws
fi
echo 'statements std: modules loaded=8 checked=0'
if [ \"$name\" = \"${FAIL:-}\" ]; then
    echo 'it does not hold' >&2
    echo 'logic=not-proved'
    exit 3
fi
proved $name
mkdir -p out
echo $name > out/lib$name.a
";

const CRATES: &str = "# NAME: what it depends on
bools:
spare: laws
answers staticlib: laws
laws: bools
answers_asked staticlib: laws io
program: spare
";

/// A folder that goes when the test is done.
struct Folder(PathBuf);

impl Folder {
    fn new(name: &str) -> Folder {
        let path = std::env::temp_dir().join(format!("tezhukor-{}-{name}", std::process::id()));
        let folder = Folder(path);
        let tools = Path::new(env!("CARGO_MANIFEST_DIR")).join("../tools/libraries");
        folder.put("tools/libraries", &std::fs::read_to_string(tools).expect("the script"));
        folder.put("crates.txt", CRATES);
        folder.put("crates/answers/src/lib.rt", "");
        folder.put("crates/answers_asked/src/lib.rt", "");
        let prover = folder.put("bin/rt", PROVER);
        std::fs::set_permissions(prover, PermissionsExt::from_mode(0o755)).expect("it may run");
        folder
    }

    fn put(&self, name: &str, text: &str) -> PathBuf {
        let path = self.0.join(name);
        std::fs::create_dir_all(path.parent().expect("a folder")).expect("a folder");
        std::fs::write(&path, text).expect("a file");
        path
    }

    fn run(&self, fails: &str) -> Output {
        let path = std::env::var("PATH").expect("a path");
        Command::new("bash")
            .arg(self.0.join("tools/libraries"))
            .env("PATH", format!("{}:{path}", self.0.join("bin").display()))
            .env("FAIL", fails)
            .output()
            .expect("bash runs")
    }
}

impl Drop for Folder {
    fn drop(&mut self) {
        let _ = std::fs::remove_dir_all(&self.0);
    }
}

fn lines(output: &Output) -> Vec<String> {
    String::from_utf8_lossy(&output.stdout).lines().map(str::to_string).collect()
}

#[test]
fn crates_are_counted() {
    let folder = Folder::new("counted");
    let output = folder.run("");
    assert_eq!(output.status.code(), Some(0));
    let lines = lines(&output);
    assert!(lines[0].starts_with("proving 4 crates"), "{lines:?}");
    assert!(lines[0].ends_with("the log is target/libraries.log"), "{lines:?}");
    let meant = [
        "proving 1 of 4: bools",
        "proving 2 of 4: laws",
        "proving 3 of 4: answers",
        "proving 4 of 4: answers_asked",
        "the static libraries are in target/staticlib",
    ];
    assert_eq!(lines[1..], meant);
    let log = std::fs::read_to_string(folder.0.join("target/libraries.log")).expect("the log");
    assert_eq!(log.matches("modules loaded").count(), 6);
    let library = folder.0.join("target/staticlib/libanswers_asked.a");
    assert_eq!(std::fs::read_to_string(library).expect("a copy"), "answers_asked\n");
}

#[test]
fn the_end_of_the_log_is_told() {
    let folder = Folder::new("failed");
    let output = folder.run("answers");
    assert_eq!(output.status.code(), Some(3));
    let lines = lines(&output);
    let meant = ["it does not hold", "logic=not-proved"];
    assert_eq!(lines[lines.len() - 2..], meant);
    assert!(lines.iter().any(|line| line.ends_with("target/libraries.log has:")));
    assert!(!lines.iter().any(|line| line.contains("answers_asked")), "{lines:?}");
}
