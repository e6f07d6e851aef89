//! generate FOLDER: writes the repository's vector files from the reference.

mod cases;
mod choices;
mod count;
mod hub;
mod lengthened;
mod lparse;
mod missing;
mod positions;
mod program;
mod sequences;
mod sheets;
mod unfolded;

use std::{env, path::Path};

fn main() {
    let folder = env::args().nth(1).expect("usage: generate FOLDER");
    let folder = Path::new(&folder);
    sheets::cases().write(folder, "sheets.txt");
    sequences::cases().write(folder, "sequences.txt");
    unfolded::cases().write(folder, "unfolded.txt");
    count::cases().write(folder, "count.txt");
    program::cases().write(folder, "program.txt");
    lparse::cases().write(folder, "lparse.txt");
    missing::cases().write(folder, "missing.txt");
    hub::cases().write(folder, "hub.txt");
    positions::cases().write(folder, "positions.txt");
    lengthened::cases().write(folder, "lengthened.txt");
}
