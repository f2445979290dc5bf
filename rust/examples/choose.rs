//! What an ingest tool does with a survey file: reads it, has the pick chosen, and has the claim
//! that comes with the pick checked.
//!
//! `choose FILE`, or a survey on standard input. It prints what the pick program prints:
//!
//! ```text
//! survey 5 4
//! chosen 2 dead 14 live 6 rounds 4
//! 1
//! 4
//! ```
//!
//! or, where something is refused, `refused number place`, with the fault in words on standard
//! error.

use corkgully::{check, choose, read, Refusal};
use std::io::{self, Read};
use std::{env, fs, process};

fn main() -> io::Result<()> {
    let mut file = Vec::new();
    match env::args_os().nth(1) {
        Some(path) => file = fs::read(path)?,
        None => drop(io::stdin().read_to_end(&mut file)?),
    }
    if let Err(refusal) = print_pick(&file) {
        println!("refused {} {}", refusal.number, refusal.place.number());
        eprintln!("{}", refusal);
        process::exit(1);
    }
    Ok(())
}

fn print_pick(file: &[u8]) -> Result<(), Refusal> {
    let survey = read(file)?;
    let pick = choose(&survey)?;
    // The chooser is proved, so this is never refused. A tool that stores the claim with the survey
    // can have it checked again when it reads both back, and needs to trust neither file.
    check(&survey, &pick.claim)?;

    println!("survey {} {}", survey.groups.len(), survey.links.len());
    println!(
        "chosen {} dead {} live {} rounds {}",
        pick.groups.len(),
        pick.dead,
        pick.live,
        pick.rounds
    );
    for group in pick.groups {
        println!("{}", group);
    }
    Ok(())
}
