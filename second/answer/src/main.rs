//! The answer program's entry: a tape on standard input, its answers on standard output.

use std::env;
use std::io::{self, BufReader, BufWriter, Write};
use std::process::ExitCode;

const BUFFER: usize = 1 << 16;
const USAGE: &str = "usage: second [--remaining] < TAPE";
const USAGE_STATUS: u8 = 2;

fn main() -> io::Result<ExitCode> {
    let arguments: Vec<_> = env::args_os().skip(1).collect();
    let ticks_wanted = match arguments.as_slice() {
        [] => false,
        [mode] if mode == "--remaining" => true,
        _ => {
            eprintln!("{USAGE}");
            return Ok(ExitCode::from(USAGE_STATUS));
        }
    };
    let mut tape = BufReader::with_capacity(BUFFER, io::stdin().lock());
    let mut out = BufWriter::with_capacity(BUFFER, io::stdout().lock());
    if ticks_wanted {
        second::answer::remaining(&mut tape, &mut out)?;
    } else {
        second::answer::answer(&mut tape, &mut out)?;
    }
    out.flush()?;
    Ok(ExitCode::SUCCESS)
}
