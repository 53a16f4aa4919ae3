//! `./normalise --plain`: by the plain version, which needs no proof.

use std::process::ExitCode;

fn main() -> ExitCode {
    ExitCode::from(desk::normalise::main(&desk::calls::Plain, std::env::args_os().skip(1)))
}
