//! Compares the printing programs with the second program: hundreds of texts,
//! printed by the program `motifs` and by the second one, and hundreds of FASTA
//! files, cut to lines by the program `lines` and by the second one. Every byte
//! has to be the same. (The library's calls are compared linked, in
//! tests/library_compare.rs.)
//!
//!     compare MOTIFS.. -- LINES..
//!
//! MOTIFS and LINES are the commands that run the two programs. Every input
//! follows from the seeds that are printed. The first difference is printed with
//! its input, and ends the run with status 1.

mod faulty;
mod lines;
mod program;
mod texts;

use std::process::ExitCode;

fn main() -> ExitCode {
    let words: Vec<String> = std::env::args().skip(1).collect();
    let commands: Vec<&[String]> = words.split(|word| word == "--").collect();
    let [motifs, lines] = commands[..] else {
        eprintln!("compare MOTIFS.. -- LINES..: the commands that run the two programs");
        return ExitCode::from(2);
    };
    if commands.iter().any(|command| command.is_empty()) {
        eprintln!("compare MOTIFS.. -- LINES..: a command has at least one word");
        return ExitCode::from(2);
    }
    match texts::compare(motifs).and_then(|()| lines::compare(lines)) {
        Ok(()) => {
            println!("every byte is the same");
            ExitCode::SUCCESS
        }
        Err(difference) => {
            println!("DIFFERENCE: {difference}");
            ExitCode::FAILURE
        }
    }
}
