//! The command line.

use clap::{Args, Parser, Subcommand};
use std::path::PathBuf;

/// The everyday bench: captures of a PPE 42 core, or with --42x of a PPE 42X, made, shown, listed, run, traced, compared, written
/// as S-records and served to a debugger, and lines assembled, by the proved library.
///
/// Steps are numbered from 0. Addresses and words are in hex, sizes and counts decimal (K, M and G are thousands). Exit
/// status: 0 all is well; 1 not as expected, a difference, words that the core lacks, or a line that asm refused; 2 the
/// input is wrong, and an old output is as it was. docs/CORE.md says what captures, event bytes, halt codes and refusals are.
#[derive(Parser)]
#[command(name = "ppe42", bin_name = "./ppe42", disable_help_subcommand = true)]
pub struct Command {
    #[command(subcommand)]
    pub what: What,
    /// The core is a PPE 42X; a capture does not tell
    #[arg(long = "42x", global = true)]
    pub is_42x: bool,
}

#[derive(Subcommand)]
pub enum What {
    /// Firmware, an ELF, S-records or a raw binary, to a capture; names the words of an ELF that the core lacks
    Make(Make),
    /// Registers by name, what MSR and DBCR mean, and memory
    Show(Show),
    /// Memory as instructions, with symbols
    ///
    /// A line a word: address, word, instruction and, after #, where a branch leads, the name of a special-purpose
    /// register, or that the word is illegal or has a field that no line writes. Four or more words of 0 are one line.
    List(List),
    /// Play a capture and say why it stopped and what changed
    Run(Run),
    /// A line a step: its instruction, what it did, what it changed
    Trace(Trace),
    /// Registers and memory that differ, old and new
    Diff(Diff),
    /// The memory of a capture as S-records
    ///
    /// A line for each 32 bytes, of type S3, and the end, an S7 of address 0. Registers have no place in S-records; make
    /// reads the file back, with --set for registers.
    Srec(Srec),
    /// Lines of assembly to words
    ///
    /// A line is as the manual writes it in 9.4: the mnemonic, one space, the operands with commas and no blanks between
    /// them. Numbers are decimal, or hex after 0x, or expressions with + - * ( ). A branch target is in bytes from the
    /// branch on, for ba, bla, bca and bcla from 0 on. Each word goes to standard output; what is wrong with a line goes to
    /// standard error, with its column from 0, and the exit status is 1 at the end. Blank lines are passed over.
    Asm(Asm),
    /// Serve a stock debugger: breakpoints, watchpoints, steps forth and back
    ///
    /// Waits on the loopback address for gdb-multiarch, which comes with 'target remote :4242'; name the ELF to it for source
    /// lines and symbols. 'monitor help' there names what this adds: events, halts and refusals in words, captures. One
    /// debugger at a time; where one goes, the core stays as it is for the next. gdb's 'kill' ends this. docs/DEBUGGING.md has
    /// a page of it.
    Gdb(Gdb),
}

#[derive(Args)]
pub struct Make {
    /// An ELF for 32-bit PowerPC, S-records (any file of text), or a raw binary that begins at address 0
    pub firmware: PathBuf,
    /// The capture to write
    #[arg(short, long, value_name = "CAPTURE")]
    pub out: PathBuf,
    /// Bytes of memory to lend: a multiple of 32, at most 1048576
    #[arg(long, value_name = "BYTES")]
    pub memory: String,
    /// A register's start; all are 0 but IAR, which has the ELF's entry, or the address of the end of S-records
    #[arg(long, value_name = "NAME=HEX")]
    pub set: Vec<String>,
    /// Write the capture even if the core lacks words of the firmware
    #[arg(long)]
    pub anyway: bool,
}

#[derive(Args)]
pub struct Show {
    /// The capture to show
    pub capture: PathBuf,
    /// Memory from an address up to another, as in 100..140
    #[arg(long, value_name = "FROM..TO")]
    pub memory: Option<String>,
    /// The ELF that the capture was made of, for symbols
    #[arg(long, value_name = "ELF")]
    pub elf: Option<PathBuf>,
}

#[derive(Args)]
pub struct List {
    /// A capture, or an ELF, of which the loaded parts are listed
    #[arg(value_name = "CAPTURE|ELF")]
    pub file: PathBuf,
    /// From an address up to another, as in 100..140
    #[arg(value_name = "FROM..TO")]
    pub range: Option<String>,
    /// The ELF that the capture was made of, for symbols
    #[arg(long, value_name = "ELF")]
    pub elf: Option<PathBuf>,
}

#[derive(Args)]
pub struct Run {
    /// The capture to play; it stays as it is unless --out names it
    pub capture: PathBuf,
    /// Steps at most
    #[arg(long, value_name = "COUNT", default_value = "1M")]
    pub steps: String,
    /// Events: lines like 'at 100 1', 'every 50 timer0', 'from 200 to 260 external', '1000*0 1'
    #[arg(long, value_name = "FILE")]
    pub events: Option<PathBuf>,
    /// One such line
    #[arg(long, value_name = "LINE")]
    pub event: Vec<String>,
    /// Stop where a step leaves IAR there, or where one sets MSR[WE]
    #[arg(long, value_name = "SYMBOL|ADDRESS|wait")]
    pub until: Option<String>,
    /// Write what the run left
    #[arg(short, long, value_name = "CAPTURE")]
    pub out: Option<PathBuf>,
    /// The ELF that the capture was made of, for symbols
    #[arg(long, value_name = "ELF")]
    pub elf: Option<PathBuf>,
    /// Exit with 1 if it ends otherwise: 'halt CODE', 'used' (all steps), 'until', 'inside' (its memory), 'steps COUNT',
    /// 'NAME=HEX', with commas between several
    #[arg(long, value_name = "OUTCOME")]
    pub expect: Option<String>,
    /// A register changed before the run
    #[arg(long, value_name = "NAME=HEX")]
    pub set: Vec<String>,
    /// The report for scripts
    #[arg(long)]
    pub json: bool,
    /// Play by the plain engine, which keeps no decoded words
    #[arg(long)]
    pub plain: bool,
}

#[derive(Args)]
pub struct Trace {
    /// The capture to play; it stays as it is
    pub capture: PathBuf,
    /// The first step that is shown
    #[arg(long, value_name = "STEP", default_value = "0")]
    pub from: String,
    /// Steps that are shown
    #[arg(long, value_name = "COUNT", default_value = "20")]
    pub steps: String,
    /// Events, as for run
    #[arg(long, value_name = "FILE")]
    pub events: Option<PathBuf>,
    /// One line of events
    #[arg(long, value_name = "LINE")]
    pub event: Vec<String>,
    /// The ELF that the capture was made of, for symbols
    #[arg(long, value_name = "ELF")]
    pub elf: Option<PathBuf>,
    /// A register changed before the first step
    #[arg(long, value_name = "NAME=HEX")]
    pub set: Vec<String>,
}

#[derive(Args)]
pub struct Diff {
    /// The old capture
    pub before: PathBuf,
    /// The new one
    pub after: PathBuf,
}

#[derive(Args)]
pub struct Srec {
    /// The capture whose memory is written
    pub capture: PathBuf,
    /// The file of S-records to write
    #[arg(short, long, value_name = "FILE")]
    pub out: PathBuf,
}

#[derive(Args)]
pub struct Asm {
    /// The lines; without a file, or with -, those of standard input, each answered as it comes
    pub file: Option<PathBuf>,
}

#[derive(Args)]
pub struct Gdb {
    /// A capture; with --memory an ELF, S-records or a raw binary. It stays as it is
    pub file: PathBuf,
    /// The port to wait on; 0 for any that is free
    #[arg(long, value_name = "N", default_value = "4242")]
    pub port: u16,
    /// Bytes of memory to lend to firmware: a multiple of 32, at most 1048576
    #[arg(long, value_name = "BYTES")]
    pub memory: Option<String>,
    /// A register changed before the first step
    #[arg(long, value_name = "NAME=HEX")]
    pub set: Vec<String>,
    /// Events, as for run
    #[arg(long, value_name = "FILE")]
    pub events: Option<PathBuf>,
    /// One line of events
    #[arg(long, value_name = "LINE")]
    pub event: Vec<String>,
    /// The ELF that a capture was made of, for symbols in what is said; gdb is given it by itself
    #[arg(long, value_name = "ELF")]
    pub elf: Option<PathBuf>,
    /// Go on even if the core lacks words of the firmware
    #[arg(long, requires = "memory")]
    pub anyway: bool,
}
