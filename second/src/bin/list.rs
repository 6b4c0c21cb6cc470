//! Reads one session from standard input and prints its listing, with the argument `--box` as the
//! box gives it.

use std::env;
use std::io::{self, Read, Write};

use second::listing::{box_listing, listing, READ_LIMIT};

fn main() -> io::Result<()> {
    let mut session = Vec::new();
    io::stdin().take(READ_LIMIT as u64).read_to_end(&mut session)?;
    let boxed = env::args_os().nth(1).is_some_and(|argument| argument == "--box");
    let text = if boxed { box_listing(&session) } else { listing(&session) };
    io::stdout().write_all(text.as_bytes())
}
