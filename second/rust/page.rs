//! The bytes of a page.

use crate::bridge::{Answer, Search};
use crate::refusal::Refusal;
use crate::sheet;
use std::io::{self, Write};

/// Writes the page of a sheet, its displacements found by the search `S`; answers the exit status that goes with it.
pub fn page_of<S: Search>(sheet: &[u8], page: &mut impl Write) -> io::Result<u8> {
    let (bridge, cases) = match sheet::read(sheet) {
        Ok(found) => found,
        Err(refusal) => return write_refusal(&refusal, page).map(|()| 1),
    };
    page.write_all(b"case,answer,dlow,dhigh,force,clear,restores\n")?;
    for (place, case) in cases.iter().enumerate() {
        write_case(place + 1, bridge.answer::<S>(case), page)?;
    }
    writeln!(page, "end,{}", cases.len())?;
    Ok(0)
}

fn write_case(place: usize, answer: Option<Answer>, page: &mut impl Write) -> io::Result<()> {
    let Some(Answer { dlow, dhigh, force, clear, restores }) = answer else {
        return writeln!(page, "{place},8,-,-,-,-,-");
    };
    let restores = if restores { 'Y' } else { 'N' };
    writeln!(page, "{place},0,{dlow},{dhigh},{force},{clear},{restores}")
}

fn write_refusal(refusal: &Refusal, page: &mut impl Write) -> io::Result<()> {
    let Refusal { reason, layer, line, field } = *refusal;
    writeln!(page, "refused,layer,line,field\n{},{},{line},{field}", reason as u8, layer as u8)
}
