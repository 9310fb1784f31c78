//! The commands of docs/GUIDE.md, run: each prints what stands below it there.

mod common;

use common::{root, COMPILE};
use std::fs;
use std::path::Path;
use std::process::Command;

/// Runs a command line where the guide's reader stands, with the programs on the path.
fn ran(line: &str) -> String {
    let programs = Path::new(COMPILE).parent().unwrap().display();
    let path = format!("{programs}:{}", std::env::var("PATH").unwrap());
    let output = Command::new("bash")
        .args(["-c", &format!("exec 2>&1; {line}")])
        .current_dir(root())
        .env("PATH", path)
        .output()
        .unwrap();
    String::from_utf8(output.stdout).unwrap()
}

#[test]
fn prints_what_it_says() {
    let guide = fs::read_to_string(root().join("docs/GUIDE.md")).unwrap();
    fs::create_dir_all(root().join("target")).unwrap();
    let mut commands = 0;
    for block in guide.split("```text\n").skip(1) {
        let (block, _) = block.split_once("```").unwrap();
        for command in block.strip_prefix("$ ").unwrap().split("\n$ ") {
            let (line, prints) = command.split_once('\n').unwrap_or((command, ""));
            assert_eq!(ran(line).trim_end(), prints.trim_end(), "{line}");
            commands += 1;
        }
    }
    assert_eq!(commands, 45);
}
