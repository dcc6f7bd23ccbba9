//! Stored transcripts: each `$` line is run in a folder with the firmware, and must print what stands below it. What goes to
//! standard error follows what goes to standard output, then the exit status if it is not 0. Lines of `time` are left out. A
//! last word `<FILE` gives ./ppe42 that file on standard input. Where something is run, it must all come again with --plain.

mod common;

use common::{fed, folder, text};
use std::fs;
use std::path::Path;

fn transcript(name: &str) {
    let path = Path::new(env!("CARGO_MANIFEST_DIR")).join("tests/transcripts").join(name).with_extension("txt");
    let stored = fs::read_to_string(&path).expect("the transcript is there");
    compare(&path, &stored, name, |arguments| arguments.to_vec());
    if stored.lines().filter_map(|line| line.strip_prefix(COMMAND)).any(|words| runs(&split(words))) {
        compare(&path, &stored, &format!("{name}_plain"), plainly);
    }
}

const COMMAND: &str = "$ ./ppe42 ";

fn runs(arguments: &[String]) -> bool {
    arguments.iter().find(|argument| *argument != "--42x").is_some_and(|command| command == "run")
}

/// The arguments with --plain, if they are those of run.
fn plainly(arguments: &[String]) -> Vec<String> {
    let plain = runs(arguments).then(|| "--plain".into());
    arguments.iter().cloned().chain(plain).collect()
}

/// Runs the lines, with the arguments changed, in a folder of this name.
fn compare(path: &Path, stored: &str, name: &str, change: impl Fn(&[String]) -> Vec<String>) {
    let folder = folder(name);
    let mut found = String::new();
    for line in stored.lines() {
        if let Some(words) = line.strip_prefix(COMMAND) {
            let (words, file) = words.split_once(" <").unwrap_or((words, ""));
            let arguments = change(&split(words));
            let arguments: Vec<&str> = arguments.iter().map(String::as_str).collect();
            let input =
                if file.is_empty() { Vec::new() } else { fs::read(folder.join(file)).expect("the input is there") };
            let output = fed(&folder, &arguments, &input);
            found += &format!("{line}\n{}{}", timeless(&text(&output.stdout)), text(&output.stderr));
            let code = output.status.code().expect("it ends by itself");
            if code != 0 {
                found += &format!("exit {code}\n");
            }
        } else if let Some(command) = line.strip_prefix("$ ") {
            assert!(std::process::Command::new("sh")
                .arg("-c")
                .arg(command)
                .current_dir(&folder)
                .status()
                .unwrap()
                .success());
            found += &format!("{line}\n");
        } else if line.starts_with('#') {
            found += &format!("{line}\n");
        }
    }
    let kept = Path::new(env!("CARGO_TARGET_TMPDIR")).join(name).with_extension("found");
    fs::write(&kept, &found).expect("the folder can be written");
    assert!(found == stored, "{} is not what came; that is in {}", path.display(), kept.display());
}

fn timeless(printed: &str) -> String {
    let kept = printed.lines().filter(|line| !line.starts_with("time     ") && !line.contains("\"seconds\": "));
    kept.map(|line| format!("{line}\n")).collect()
}

/// Words between blanks; '..' keeps blanks.
fn split(words: &str) -> Vec<String> {
    let mut split = vec![String::new()];
    let mut quoted = false;
    for letter in words.chars() {
        match letter {
            '\'' => quoted = !quoted,
            ' ' if !quoted => split.push(String::new()),
            _ => split.last_mut().expect("never empty").push(letter),
        }
    }
    split
}

#[test]
fn ledger() {
    transcript("ledger");
}

#[test]
fn ticks() {
    transcript("ticks");
}

#[test]
fn look() {
    transcript("look");
}

#[test]
fn context() {
    transcript("context");
}

#[test]
fn srec() {
    transcript("srec");
}

#[test]
fn asm() {
    transcript("asm");
}

#[test]
fn list() {
    transcript("list");
}

#[test]
fn products() {
    transcript("products");
}

#[test]
fn frame() {
    transcript("frame");
}

#[test]
fn which_core() {
    transcript("which_core");
}

#[test]
fn wrong_input() {
    transcript("wrong_input");
}
