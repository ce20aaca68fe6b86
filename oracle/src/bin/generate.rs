//! `generate SEED COUNT [--skip K]`: sheets K, K + 1, .. of a seed, as a stream.
//! `--raw` writes the bare bytes without lengths (for COUNT 1).
//! `generate groups SEED COUNT [--skip K]`: groups K, K + 1, .. of a seed, as a stream.
//! `generate calls SEED COUNT [--skip K]`: cases of single calls, one after the other.

use oracle_lib::make::{case, group, sheet};
use oracle_lib::stream::write_item;
use std::io::{self, BufWriter, Write};
use std::process::ExitCode;

#[derive(Clone, Copy, PartialEq, Eq)]
enum What {
    Sheets,
    Groups,
    Calls,
}

struct Arguments {
    what: What,
    seed: u64,
    count: u64,
    skip: u64,
    raw: bool,
}

fn arguments() -> Option<Arguments> {
    let mut numbers = Vec::new();
    let (mut skip, mut raw) = (0, false);
    let mut words = std::env::args().skip(1).peekable();
    let what = match words.next_if(|word| word == "groups" || word == "calls").as_deref() {
        Some("groups") => What::Groups,
        Some(_) => What::Calls,
        None => What::Sheets,
    };
    while let Some(word) = words.next() {
        match word.as_str() {
            "--skip" => skip = words.next()?.parse().ok()?,
            "--raw" if what == What::Sheets => raw = true,
            _ => numbers.push(word.parse().ok()?),
        }
    }
    match numbers.as_slice() {
        [seed, count] => Some(Arguments { what, seed: *seed, count: *count, skip, raw }),
        _ => None,
    }
}

fn write_all(arguments: &Arguments) -> io::Result<()> {
    let mut out = BufWriter::new(io::stdout().lock());
    for k in arguments.skip..arguments.skip + arguments.count {
        let bytes = match arguments.what {
            What::Sheets => sheet(arguments.seed, k),
            What::Groups => group(arguments.seed, k).to_bytes()?,
            What::Calls => case(arguments.seed, k).to_bytes()?,
        };
        if arguments.raw || arguments.what == What::Calls {
            out.write_all(&bytes)?;
        } else {
            write_item(&mut out, &bytes)?;
        }
    }
    out.flush()
}

fn main() -> ExitCode {
    let Some(arguments) = arguments() else {
        eprintln!("use: generate SEED COUNT [--skip K] [--raw]");
        eprintln!("     generate groups SEED COUNT [--skip K]");
        eprintln!("     generate calls SEED COUNT [--skip K]");
        return ExitCode::from(2);
    };
    match write_all(&arguments) {
        Ok(()) => ExitCode::SUCCESS,
        Err(error) => {
            eprintln!("generate: {error}");
            ExitCode::from(2)
        }
    }
}
