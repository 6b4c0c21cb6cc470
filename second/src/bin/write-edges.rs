//! Writes the sessions at the edges, the box's among them, into a directory, each with its listings
//! by an exam machine and by the box.

use std::path::Path;
use std::{env, io};

use second::{edges, listing};

fn main() -> io::Result<()> {
    let directory = env::args_os().nth(1);
    let directory = directory.ok_or_else(|| io::Error::other("usage: write-edges DIR"))?;
    let directory = Path::new(&directory);
    let sessions = [edges::all(), edges::of_the_box()].concat();
    listing::write_into(directory, &sessions)?;
    listing::write_for_the_box(directory, &sessions)
}
