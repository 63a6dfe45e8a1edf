//! Reads a round file and prints its outer polygon and the word for each plug; or why the file or its round is refused. In this
//! crate's folder:
//!   cargo run --offline --release --example read_file ../../samples/round-b.round

use std::error::Error;
use std::path::Path;
use std::process::ExitCode;
use std::{env, fs};

use feltloquat::{outer_polygon, read_round, word, Point};

fn print_words(path: &Path) -> Result<(), Box<dyn Error>> {
    let round = read_round(&fs::read(path)?)?;
    // The reader judges form only; this call judges the boxes.
    let outer = outer_polygon(&round.boxes)?;
    println!("boxes {} plugs {}", round.boxes.len() / 4, round.plugs.len() / 2);
    let vertices: Vec<String> = outer.iter().map(Point::to_string).collect();
    println!("outer polygon {}", vertices.join(" "));
    for (index, plug) in round.plugs.chunks_exact(2).enumerate() {
        let plug = Point { east: plug[0], north: plug[1] };
        match word(&round.boxes, plug.east, plug.north) {
            Ok(word) => println!("{} {plug} {word}", index + 1),
            Err(refusal) => println!("{} {plug} refused: {}", index + 1, refusal.words()),
        }
    }
    Ok(())
}

fn main() -> ExitCode {
    let Some(path) = env::args_os().nth(1) else {
        eprintln!("usage: read_file ROUND_FILE");
        return ExitCode::FAILURE;
    };
    let path = Path::new(&path);
    match print_words(path) {
        Ok(()) => ExitCode::SUCCESS,
        Err(error) => {
            eprintln!("{}: {error}", path.display());
            ExitCode::FAILURE
        }
    }
}
