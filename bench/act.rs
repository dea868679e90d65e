//! The steps of `bench_region` in Rust by hand: the same atomic loads and stores, with nothing proved.
use std::env;
use std::hint::black_box;
use std::sync::atomic::{AtomicU64, Ordering::SeqCst};

const EPOCH: usize = 0;
const ROUND: usize = 1;
const FIRST_SECTION: usize = 2;
const FIELDS: usize = 260; // of the first slot, in a region of two passes and one collection of 64 slots
const WIDTH: usize = 8;

struct Region {
    words: Box<[AtomicU64]>,
}

struct Section<'r> {
    region: &'r Region,
    own: usize,
    epoch: u64,
    calm: bool,
}

impl Region {
    fn enter(&self, pass: usize) -> Section<'_> {
        let own = FIRST_SECTION + pass;
        let seen = self.words[EPOCH].load(SeqCst);
        self.words[own].store(seen, SeqCst);
        let epoch = self.words[EPOCH].load(SeqCst);
        self.words[own].store(epoch, SeqCst);
        let round = self.words[ROUND].load(SeqCst);
        let calm = round == 0 || epoch <= round >> 16;
        Section { region: self, own, epoch, calm }
    }
}

impl Section<'_> {
    fn load(&mut self, word: usize) -> u64 {
        self.region.words[word].load(SeqCst)
    }

    fn leave(self) {
        self.region.words[self.own].store(0, SeqCst);
    }
}

/// Enters and leaves so many times.
#[inline(never)]
fn enter_and_leave(region: &Region, pass: usize, turns: u32) {
    for _ in 0..turns {
        region.enter(pass).leave();
    }
}

/// The sum of the fields of an object, each loaded so many times.
#[inline(never)]
fn read_fields(section: &mut Section<'_>, first: usize, width: u32, turns: u32) -> u64 {
    let mut sum = 0u64;
    for _ in 0..turns {
        for field in 0..width {
            sum = sum.wrapping_add(section.load(first + field as usize));
        }
    }
    sum
}

fn main() {
    let what = env::args().nth(1).unwrap_or_default();
    let words = (0..1024).map(|i| AtomicU64::new(if i == EPOCH { 2 } else { 0 })).collect();
    let region = Region { words };
    for field in 0..WIDTH {
        region.words[FIELDS + field].store(field as u64, SeqCst);
    }
    if what == "sections" {
        return enter_and_leave(&region, black_box(1), 10_000_000);
    }
    let mut section = region.enter(1);
    let sum = read_fields(&mut section, black_box(FIELDS), black_box(WIDTH as u32), 10_000_000);
    println!("{sum} {} {}", section.epoch, section.calm);
}
