//! What the documents show of the tool is what it prints.

use std::path::Path;
use std::process::Command;

/// The commands of a document's blocks, each with the lines under it. A command stands after `$ `.
fn commands(document: &str) -> Vec<(String, String)> {
    let mut commands: Vec<(String, String)> = Vec::new();
    for block in document.split("\n```").skip(1).step_by(2) {
        let mut inside = false;
        for line in block.lines().skip(1) {
            if let Some(command) = line.strip_prefix("$ ") {
                inside = command.starts_with("target/bin/manual ");
                if inside {
                    commands.push((command.to_string(), String::new()));
                }
            } else if inside {
                let (_, printed) = commands.last_mut().unwrap();
                *printed += &format!("{line}\n");
            }
        }
    }
    commands
}

/// What a command prints, standard error first, run in the repository's root.
fn printed(command: &str) -> String {
    let root = Path::new(env!("CARGO_MANIFEST_DIR")).join("..");
    let command = command.replace("target/bin/manual", concat!("'", env!("CARGO_BIN_EXE_manual"), "'"));
    let ran = Command::new("bash").args(["-c", &command]).current_dir(root).output().expect("bash starts");
    String::from_utf8(ran.stderr).unwrap() + &String::from_utf8(ran.stdout).unwrap()
}

fn holds(document: &str, least: usize) {
    let path = Path::new(env!("CARGO_MANIFEST_DIR")).join(document);
    let commands = commands(&std::fs::read_to_string(path).unwrap());
    assert!(commands.len() >= least, "{document} has {} commands", commands.len());
    for (command, shown) in commands {
        assert_eq!(printed(&command), shown, "{document}: {command}");
    }
}

#[test]
fn the_projects_readme_shows_what_is_printed() {
    holds("../README.md", 2);
}

#[test]
fn the_tools_readme_shows_what_is_printed() {
    holds("README.md", 11);
}
