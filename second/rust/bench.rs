//! Times three ways to answer the same sheets: the library, plain Rust, and plain Rust that scans every displacement.
//! Each argument is a file of framed sheets; for each a line is printed with the microseconds per sheet of the three.
//! Times are processor time, so that other work on the machine counts little, and the best of several rounds.

use plain::{framing, page_of, Halving, Scan, Search};
use std::hint::black_box;
use std::time::{Duration, Instant};

type Page = [u8; 1_024];
type Job = fn(&[u8], &mut Page) -> usize;

const JOBS: [Job; 3] = [library, plain::<Halving>, plain::<Scan>];
const LEAST_ROUNDS: usize = 2;
const PATIENCE: Duration = Duration::from_millis(1_200);

extern "C" {
    fn deckpage_answer(
        sheet: *const u8,
        sheet_len: usize,
        page: *mut u8,
        page_len: usize,
        refusal: *mut u32,
    ) -> usize;

    /// Processor time of this process, in microseconds on every POSIX system.
    fn clock() -> std::ffi::c_long;
}

fn library(sheet: &[u8], page: &mut Page) -> usize {
    let mut refusal = 0;
    // SAFETY: the pointers and lengths are those of two slices and a number that the call alone uses.
    unsafe { deckpage_answer(sheet.as_ptr(), sheet.len(), page.as_mut_ptr(), page.len(), &mut refusal) }
}

fn plain<S: Search>(sheet: &[u8], page: &mut Page) -> usize {
    let mut free = &mut page[..];
    page_of::<S>(sheet, &mut free).expect("a page fits");
    let left = free.len();
    page.len() - left
}

fn processor_time() -> f64 {
    // SAFETY: the C library's clock takes nothing and touches nothing of ours.
    unsafe { clock() as f64 }
}

fn same_pages(sheet: &[u8]) -> bool {
    let pages = JOBS.map(|job| {
        let mut page = [0; 1_024];
        let written = job(sheet, &mut page);
        page[..written].to_vec()
    });
    pages.iter().all(|page| *page == pages[0] && page.starts_with(b"case,"))
}

/// Microseconds of one round over the sheets.
fn round(job: Job, sheets: &[&[u8]]) -> f64 {
    let mut page = [0; 1_024];
    let start = processor_time();
    for sheet in sheets {
        black_box(job(black_box(sheet), &mut page));
    }
    processor_time() - start
}

/// The best rounds of some jobs, which take turns.
fn best<const N: usize>(jobs: [Job; N], sheets: &[&[u8]]) -> [f64; N] {
    let mut found = [f64::INFINITY; N];
    let start = Instant::now();
    let mut rounds = 0;
    while rounds < LEAST_ROUNDS || start.elapsed() < PATIENCE {
        for (time, job) in found.iter_mut().zip(jobs) {
            *time = time.min(round(job, sheets));
        }
        rounds += 1;
    }
    found.map(|time| time / sheets.len() as f64)
}

fn main() {
    for file in std::env::args().skip(1) {
        let text = std::fs::read(&file).expect("the file can be read");
        let sheets = framing::sheets_of(&text).expect("the file has framed sheets");
        if let Some(place) = sheets.iter().position(|sheet| !same_pages(sheet)) {
            eprintln!("bench: the pages of sheet {} of {file} differ, or it is refused", place + 1);
            std::process::exit(1);
        }
        let [library, plain] = best([JOBS[0], JOBS[1]], &sheets);
        let [scan] = best([JOBS[2]], &sheets);
        println!("{library} {plain} {scan}");
    }
}
