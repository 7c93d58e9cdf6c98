//! Which arguments must a wrapper hold on to? Reads a method sheet from standard input, writes its listing to standard
//! output, and says on standard error which parameters have to be kept and for what.

use std::io::{Read, Write};

fn main() -> std::io::Result<()> {
    let mut sheet = Vec::new();
    std::io::stdin().read_to_end(&mut sheet)?;

    match dovrelka::listing(&sheet) {
        Ok(listing) => std::io::stdout().write_all(&listing)?,
        Err(refusal) => {
            println!("refusal\n{}", refusal.number());
            eprintln!("{refusal}");
            return Ok(());
        }
    }

    let borrows = dovrelka::borrows(&sheet).expect("its listing was not refused");
    for param in 0..borrows.answers.len() {
        let mut kept: Vec<usize> = borrows
            .edges
            .iter()
            .filter(|edge| edge.param == param)
            .map(|edge| edge.used)
            .collect();
        kept.dedup();
        if kept.is_empty() {
            eprintln!("parameter {param}: need not be kept");
        } else {
            let kept: String = kept
                .iter()
                .map(|lifetime| format!(" '{lifetime}"))
                .collect();
            eprintln!("parameter {param}: kept for{kept}");
        }
    }
    Ok(())
}
