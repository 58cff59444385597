//! `run [WORKERS SHARING] < SCRIPT`: does what `mainctx` does, by the library; the arguments are passed over, since the text is one.

use mainctx::Fault;
use std::io::{self, Read, Write};
use std::process::ExitCode;

const REFUSED: u8 = 2;
const NO_MEMORY: u8 = 3;

fn status_of(fault: Fault) -> u8 {
    if fault == Fault::OutOfMemory {
        NO_MEMORY
    } else {
        REFUSED
    }
}

fn main() -> io::Result<ExitCode> {
    let mut script = Vec::new();
    io::stdin().read_to_end(&mut script)?;
    match mainctx::run(&script) {
        Ok(text) => io::stdout()
            .write_all(text.as_bytes())
            .map(|()| ExitCode::SUCCESS),
        Err(fault) => {
            eprintln!("{fault}");
            Ok(ExitCode::from(status_of(fault)))
        }
    }
}
