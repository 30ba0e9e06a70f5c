//! Draws one walk of a guest's translation tables, level by level.
//!
//! It is made with the stepwise walk alone: no memory is lent, and each
//! descriptor is looked up in a description of the tables. The library is found
//! as the crate `vmsa` says: in the folder `VMSA_LIB`.

mod draw;
mod fields;
mod parse;
mod reader;
mod why;

use std::env;
use std::fs;
use std::io::{self, Write};
use std::process::ExitCode;

/// The descriptions that are built in. `docs/RULES.md`, 12, has the cases P.
const CASES: [(&str, &str); 5] = [
    ("P1", include_str!("../cases/P1.txt")),
    ("P2", include_str!("../cases/P2.txt")),
    ("P4", include_str!("../cases/P4.txt")),
    ("P7", include_str!("../cases/P7.txt")),
    ("64k", include_str!("../cases/64k.txt")),
];

const HELP: &str = "\
usage: explain [CASE | FILE | all]

Draws one walk of an Arm guest's translation tables, level by level.
CASE is P1 (where nothing is said), P2, P4, P7 or 64k, and all is every one of
them. FILE is a description: lines of the following sorts, in any order, each
number decimal or 0x and hexadecimal, and a comment after #.

  title TEXT
  regime KEY=VALUE ..              what is not given is as in brackets
      granule=4k|16k|64k               [4k]
      output=32|36|40|42|44|48         [48]  bits, TCR_EL1.IPS
      mair=NUMBER                      [0]   MAIR_EL1
      ha=on|off hd=on|off wxn=on|off   [off]
      root0=ADDRESS root1=ADDRESS      [0]   TTBR0_EL1, TTBR1_EL1
      t0=NUMBER t1=NUMBER              [16]  TCR_EL1.T0SZ, T1SZ
      epd0=on|off epd1=on|off          [off where the range has a root]
      hpd0=on|off hpd1=on|off          [off]
  at ADDRESS DESCRIPTOR            a descriptor, as a number
  tables ADDRESS LENGTH            here descriptors that no line has are 0;
                                   others cannot be read
  access ADDRESS SIZE LEVEL KIND   el0 or el1; read, write, update, fetch,
                                   probe-read or probe-write

";

fn main() -> ExitCode {
    let arguments: Vec<String> = env::args_os()
        .skip(1)
        .map(|argument| argument.to_string_lossy().into_owned())
        .collect();
    match told(&arguments) {
        Ok(text) => print(&text),
        Err(text) => {
            eprintln!("explain: {text}");
            ExitCode::from(2)
        }
    }
}

/// What the program prints, or what is wrong.
fn told(arguments: &[String]) -> Result<String, String> {
    let name = match arguments {
        [] => "P1",
        [name] => name.as_str(),
        _ => return Err("one case or file at most; --help says more".to_string()),
    };
    match name {
        "-h" | "--help" => Ok(HELP.trim_end().to_string() + "\n"),
        "all" => {
            let drawn: Result<Vec<_>, _> = CASES.iter().map(|(name, _)| drawn(name)).collect();
            Ok(drawn?.join("\n\n"))
        }
        _ => drawn(name),
    }
}

/// The drawing of a case or of a file.
fn drawn(name: &str) -> Result<String, String> {
    let mut cases = CASES.iter();
    let text = match cases.find(|(case, _)| case.eq_ignore_ascii_case(name)) {
        Some((_, text)) => (*text).to_string(),
        None => fs::read_to_string(name).map_err(|error| format!("{name}: {error}"))?,
    };
    let description = parse::parse(&text).map_err(|error| format!("{name}: {error}"))?;
    Ok(draw::draw(&description))
}

/// Prints a text; a reader that goes away is none of our concern.
fn print(text: &str) -> ExitCode {
    match io::stdout().write_all(text.as_bytes()) {
        Err(error) if error.kind() != io::ErrorKind::BrokenPipe => {
            eprintln!("explain: {error}");
            ExitCode::from(2)
        }
        _ => ExitCode::SUCCESS,
    }
}
