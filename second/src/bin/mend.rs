//! Writes a session with its trailer mended to standard output, or tells its refusal.

use std::io::{self, Write};
use std::process::ExitCode;
use std::{env, fs};

use second::mender;

fn main() -> io::Result<ExitCode> {
    let mut arguments = env::args_os().skip(1);
    let (Some(file), None) = (arguments.next(), arguments.next()) else {
        return Err(io::Error::other("usage: mend FILE"));
    };
    let mut session = fs::read(file)?;
    match mender::mend(&mut session) {
        Ok(_) => {
            io::stdout().write_all(&session)?;
            Ok(ExitCode::SUCCESS)
        }
        Err(refusal) => {
            eprintln!("refused {}", refusal.number());
            Ok(ExitCode::FAILURE)
        }
    }
}
