//! Answers requests of the command: one JSON object a line on standard input, and for each a line on standard output.

use std::io::{self, BufRead, Write};

use timing_chart::answers::answer;
use timing_chart::json::Json;

fn main() -> io::Result<()> {
    let mut output = io::stdout().lock();
    for line in io::stdin().lock().lines() {
        writeln!(output, "{}", answer(&Json::read(&line?)))?;
    }
    Ok(())
}
