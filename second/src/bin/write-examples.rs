//! Writes the examples and their listings into a directory, the box's listings of its examples, and
//! what the writer is given for its example.

use std::path::Path;
use std::{env, fs, io};

use second::{examples, listing};

fn main() -> io::Result<()> {
    let directory = env::args_os().nth(1);
    let directory = directory.ok_or_else(|| io::Error::other("usage: write-examples DIR"))?;
    let directory = Path::new(&directory);
    listing::write_into(directory, &examples::all())?;
    listing::write_for_the_box(directory, &examples::for_the_box())?;
    let written = examples::written();
    fs::write(directory.join("written.card"), written.parts().card)?;
    fs::write(directory.join("written.records"), written.parts().records)
}
