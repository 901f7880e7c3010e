//! The yardstick of bench/run.sh: what `bxgate run` does in one thread, written by hand in plain Rust, node by node and
//! bit by bit. usage: by_hand run [--turn N] [SCRIPT]

mod controller;
mod counters;
mod filters;
mod frame;
mod gateway;
mod json;
mod lines;
mod member;
mod node;
mod reader;
mod route;
mod run;
mod script;
mod segment;
mod text;

use std::error::Error;
use std::io::Read;
use std::process::ExitCode;

fn simulate() -> Result<(), Box<dyn Error>> {
    let mut words = std::env::args().skip(2);
    let (mut turn, mut file) = (1, None);
    while let Some(word) = words.next() {
        match word.as_str() {
            "--turn" => turn = words.next().ok_or("--turn wants a number")?.parse()?,
            _ => file = Some(word),
        }
    }
    let text = match file {
        Some(file) => std::fs::read_to_string(file)?,
        None => {
            let mut text = String::new();
            std::io::stdin().lock().read_to_string(&mut text)?;
            text
        }
    };
    let mut run = run::Run::new(script::Script::read(&text)?)?;
    drop(text);
    run.make(turn);
    run.print(&mut std::io::stdout().lock())?;
    Ok(())
}

fn main() -> ExitCode {
    match simulate() {
        Ok(()) => ExitCode::SUCCESS,
        Err(fault) => {
            eprintln!("by_hand: {fault}");
            ExitCode::FAILURE
        }
    }
}
