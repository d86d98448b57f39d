//! Standard input to standard output: a sheet to its page, or with `--vectors` many framed sheets to their pages.

use plain::{framing, page_of, Halving};
use std::io::{self, Read, Write};
use std::process::ExitCode;

fn answer_one(text: &[u8], page: &mut impl Write) -> io::Result<u8> {
    page_of::<Halving>(text, page)
}

fn answer_all(text: &[u8], pages: &mut impl Write) -> io::Result<u8> {
    let sheets = framing::sheets_of(text).ok_or(io::ErrorKind::InvalidData)?;
    for (place, sheet) in sheets.into_iter().enumerate() {
        writeln!(pages, "sheet {}", place + 1)?;
        page_of::<Halving>(sheet, pages)?;
    }
    Ok(0)
}

fn run() -> io::Result<u8> {
    let many = std::env::args().nth(1).is_some_and(|word| word == "--vectors");
    let (mut text, mut pages) = (Vec::new(), Vec::new());
    io::stdin().read_to_end(&mut text)?;
    let status = if many { answer_all(&text, &mut pages) } else { answer_one(&text, &mut pages) }?;
    io::stdout().write_all(&pages)?;
    Ok(status)
}

fn main() -> ExitCode {
    run().map(ExitCode::from).unwrap_or_else(|error| {
        eprintln!("plain: {error}");
        ExitCode::FAILURE
    })
}
