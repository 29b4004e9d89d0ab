//! Prints chart files of every kind from a seed, whole and spoilt, in hex, one a line.
//!
//! usage: generated COUNT SEED

use std::io::{self, Write};

use timing_chart::generator::Random;
use timing_chart::kinds::{of_kind, treated, KINDS};

fn main() -> io::Result<()> {
    let numbers: Vec<u64> = std::env::args().skip(1).filter_map(|word| word.parse().ok()).collect();
    let &[count, seed] = numbers.as_slice() else {
        eprintln!("usage: generated COUNT SEED");
        std::process::exit(2);
    };
    let mut random = Random::new(seed);
    let mut output = io::BufWriter::new(io::stdout().lock());
    for _ in 0..count {
        let kind = random.below(KINDS);
        let drawing = of_kind(&mut random, kind);
        let (_, file) = treated(&mut random, &drawing);
        let hex: String = file.iter().map(|byte| format!("{byte:02x}")).collect();
        writeln!(output, "{hex}")?;
    }
    output.flush()
}
