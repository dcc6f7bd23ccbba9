//! What the tests share: firmware from the stock compiler, folders of their own, and the program as a user runs it.
#![allow(dead_code)]

use assert_cmd::Command;
use std::fs;
use std::path::{Path, PathBuf};
use std::process::Output;
use std::sync::OnceLock;

const FIRMWARE: [(&str, &[&str]); 5] = [
    ("ledger", &["examples/ledger/start.s", "examples/ledger/ledger.c"]),
    ("ticks", &["everyday/tests/firmware/ticks.s", "everyday/tests/firmware/ticks.c"]),
    ("look", &["examples/ledger/start.s", "everyday/tests/firmware/look.c"]),
    ("context", &["everyday/tests/firmware/context.s"]),
    ("words", &["everyday/tests/firmware/words.s"]),
];

/// With words that the PPE 42 lacks, so that an ELF is all that comes of them; a 42X has those of the last two.
const LACKING: [(&str, &[&str]); 3] = [
    ("lacks", &["everyday/tests/firmware/lacks.s"]),
    ("products", &["everyday/tests/firmware/products.s"]),
    ("frame", &["everyday/tests/firmware/frame.s"]),
];

pub fn root() -> PathBuf {
    Path::new(env!("CARGO_MANIFEST_DIR")).parent().expect("everyday/ stands in the repository").into()
}

/// The folder with an ELF and S-records of each firmware, and an ELF of those with words that the PPE 42 lacks, compiled once.
pub fn firmware() -> &'static Path {
    static BUILT: OnceLock<PathBuf> = OnceLock::new();
    BUILT.get_or_init(|| {
        let folder = Path::new(env!("CARGO_TARGET_TMPDIR")).join(concat!("firmware-", env!("CARGO_CRATE_NAME")));
        for (name, sources) in FIRMWARE {
            assert!(build(&folder.join(name), sources).status.success(), "{name} does not compile");
        }
        for (name, sources) in LACKING {
            build(&folder.join(name), sources);
        }
        folder
    })
}

fn build(name: &Path, sources: &[&str]) -> Output {
    let mut command = std::process::Command::new(root().join("examples/ledger/build"));
    command.arg("-o").arg(name).args(sources.iter().map(|source| root().join(source)));
    command.output().expect("examples/ledger/build runs")
}

/// A folder for one test, with the firmware in it.
pub fn folder(name: &str) -> PathBuf {
    let folder = Path::new(env!("CARGO_TARGET_TMPDIR")).join(name);
    let _ = fs::remove_dir_all(&folder);
    fs::create_dir_all(&folder).expect("a folder for the test");
    let built = FIRMWARE.iter().flat_map(|(name, _)| [format!("{name}.elf"), format!("{name}.srec")]);
    for file in built.chain(LACKING.map(|(name, _)| format!("{name}.elf"))) {
        fs::copy(firmware().join(&file), folder.join(&file)).expect("the firmware is there");
    }
    folder
}

/// ./ppe42 in a folder.
pub fn ppe42(folder: &Path, arguments: &[&str]) -> Output {
    fed(folder, arguments, &[])
}

/// The same with something on standard input.
pub fn fed(folder: &Path, arguments: &[&str], input: &[u8]) -> Output {
    let mut command = Command::cargo_bin("ppe42").expect("the program is built");
    command.current_dir(folder).args(arguments).write_stdin(input).output().expect("the program runs")
}

pub fn text(bytes: &[u8]) -> String {
    String::from_utf8(bytes.to_vec()).expect("the program prints text")
}

/// Ends the test unless the program was content.
pub fn content(output: Output) -> Output {
    assert!(output.status.success(), "{}{}", text(&output.stdout), text(&output.stderr));
    output
}
