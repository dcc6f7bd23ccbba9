//! A stock debugger on the bench: the program serves, and the real gdb-multiarch, in batch mode, must print what is stored. Each
//! `$ ./ppe42 gdb` line starts a server and each `(gdb)` line is a command; what stands below it must come. `./test` runs these
//! where there is a gdb-multiarch.

mod common;
#[path = "common/server.rs"]
mod server;

use common::root;
use server::Server;
use std::fs::{self, File};
use std::path::{Path, PathBuf};
use std::process::{Child, Command, Stdio};
use std::sync::OnceLock;
use std::thread;
use std::time::Duration;

/// The last has words that the PPE 42 lacks, so that an ELF is all that comes of it.
const FIRMWARE: [(&str, &[&str]); 4] = [
    ("ledger", &["examples/ledger/start.s", "examples/ledger/ledger.c"]),
    ("tick", &["examples/tick/vectors.s", "examples/tick/tick.c"]),
    ("look", &["examples/ledger/start.s", "everyday/tests/firmware/look.c"]),
    ("frame", &["everyday/tests/firmware/frame.s"]),
];

/// The folder with the firmware, which tells its source lines, compiled once.
fn firmware() -> &'static Path {
    static BUILT: OnceLock<PathBuf> = OnceLock::new();
    BUILT.get_or_init(|| {
        let folder = Path::new(env!("CARGO_TARGET_TMPDIR")).join("debugged");
        for (name, sources) in FIRMWARE {
            // from the root, so that gdb names the files as they stand in the repository
            let mut build = Command::new("examples/ledger/build");
            build.current_dir(root()).arg("-o").arg(folder.join(name)).arg("-g").args(sources);
            build.output().expect("examples/ledger/build runs");
            assert!(folder.join(name).with_extension("elf").exists(), "{name} does not compile");
        }
        folder
    })
}

/// A folder for one test, with the firmware and a list of events in it.
fn folder(name: &str) -> PathBuf {
    let folder = Path::new(env!("CARGO_TARGET_TMPDIR")).join("debugger").join(name);
    let _ = fs::remove_dir_all(&folder);
    fs::create_dir_all(&folder).expect("a folder for the test");
    for elf in FIRMWARE.map(|(name, _)| format!("{name}.elf")) {
        fs::copy(firmware().join(&elf), folder.join(&elf)).expect("the firmware is there");
    }
    fs::write(folder.join("ticks.txt"), "every 100 timer0\n").expect("the folder can be written");
    folder
}

/// gdb with these commands. It prints each of them, and what comes of it, into a file of the folder.
fn gdb(folder: &Path, elf: &str, port: u16, commands: &[&str]) -> Child {
    let out = File::create(folder.join(PRINTED)).expect("the folder can be written");
    let mut command = Command::new("gdb-multiarch");
    command.current_dir(folder).args(["-nx", "-batch", elf]);
    for line in commands {
        let done = line.replace(":4242", &format!(":{port}"));
        command.arg("-ex").arg(format!("echo (gdb) {line}\\n")).arg("-ex").arg(done);
    }
    let error = out.try_clone().expect("one file for both");
    command.stdin(Stdio::null()).stdout(out).stderr(error).spawn().expect("gdb-multiarch runs")
}

const PRINTED: &str = "printed";

/// What it has printed when it ends.
fn printed(folder: &Path, mut gdb: Child) -> String {
    gdb.wait().expect("it is our child");
    let printed = fs::read_to_string(folder.join(PRINTED)).expect("gdb prints text");
    // an included file is named with its folder
    printed.replace('\t', "    ").replace(&format!("{}/", root().display()), "")
}

/// The bench is for the next debugger then.
const DETACHED: &str = "[Inferior 1 (Remote target) detached]\n";

/// Plays the transcripts of a text, and must get the text itself.
fn played(name: &str, stored: &str) {
    let folder = folder(name);
    let mut found = String::new();
    for part in stored.split_inclusive('\n').fold(Vec::new(), parts) {
        let first = part.lines().next().unwrap_or("");
        let Some(arguments) = first.strip_prefix("$ ./ppe42 gdb ") else {
            found += &part;
            continue;
        };
        let arguments: Vec<&str> = arguments.split(' ').collect();
        let server = Server::start(&folder, &arguments);
        let commands: Vec<&str> = part.lines().filter_map(|line| line.strip_prefix("(gdb) ")).collect();
        let elf = arguments.iter().rfind(|argument| argument.ends_with(".elf")).expect("an ELF is named");
        let printed = printed(&folder, gdb(&folder, elf, server.port, &commands));
        found += &format!("{first}\n{}", printed.strip_suffix(DETACHED).unwrap_or(&printed));
    }
    let kept = folder.with_extension("found");
    fs::write(&kept, &found).expect("the folder can be written");
    assert!(found == stored, "{name} is not what came; that is in {}", kept.display());
}

/// A part begins with each server.
fn parts(mut parts: Vec<String>, line: &str) -> Vec<String> {
    if parts.is_empty() || line.starts_with("$ ") {
        parts.push(String::new());
    }
    *parts.last_mut().expect("never empty") += line;
    parts
}

fn transcript(name: &str) {
    let path = Path::new(env!("CARGO_MANIFEST_DIR")).join("tests/gdb").join(name).with_extension("txt");
    played(name, &fs::read_to_string(path).expect("the transcript is there"));
}

#[test]
fn ledger() {
    transcript("ledger");
}

#[test]
fn handler() {
    transcript("handler");
}

#[test]
fn fault() {
    transcript("fault");
}

#[test]
fn frame() {
    transcript("frame");
}

/// A Ctrl-C in gdb stops a core that waits for what does not come.
#[test]
fn ctrl_c() {
    let folder = folder("ctrl_c");
    let server = Server::start(&folder, &["tick.elf", "--memory", "16384", "--set", "DBCR=01000000"]);
    let gdb = gdb(&folder, "tick.elf", server.port, &["target remote :4242", "continue", "print $msr"]);
    let out = || fs::read_to_string(folder.join(PRINTED)).expect("gdb prints text");
    while !out().contains("(gdb) continue") {
        thread::sleep(Duration::from_millis(10));
    }
    // until gdb has sent its packet
    thread::sleep(Duration::from_secs(2));
    assert!(Command::new("kill").args(["-INT", &gdb.id().to_string()]).status().expect("kill runs").success());
    let printed = printed(&folder, gdb);
    assert!(printed.contains("Program received signal SIGINT, Interrupt."), "{printed}");
    assert!(printed.contains("$1 = [ WE EE "), "{printed}");
}

/// The page shows what comes.
#[test]
fn the_page() {
    let page = fs::read_to_string(root().join("docs/DEBUGGING.md")).expect("the page is there");
    let page = page.replace("target/ledger.elf", "ledger.elf");
    let lines: Vec<&str> = page.lines().skip_while(|line| !line.starts_with("    $ ./ppe42 gdb")).collect();
    let block = lines.iter().take_while(|line| line.is_empty() || line.starts_with("    "));
    let block: String = block.map(|line| format!("{}\n", line.strip_prefix("    ").unwrap_or(line))).collect();
    played("page", &format!("{}\n", block.trim_end()));
}
