// A plain program to compare with: reads lines of one number, squares each with an overflow check, and prints it.
// A line is an optional '-', 1 to 19 digits with a value of 64 signed bits, and LF, which is less than the program takes.
use std::io::{self, BufRead, BufReader, BufWriter, Write};
use std::process::ExitCode;

mod number;

use number::value;

fn number(line: &[u8]) -> Option<i64> {
    let (negative, digits) = match line {
        [b'-', digits @ ..] => (true, digits),
        digits => (false, digits),
    };
    if digits.len() > 19 {
        return None;
    }
    value(negative, digits)
}

fn main() -> io::Result<ExitCode> {
    let mut input = BufReader::new(io::stdin().lock());
    let mut output = BufWriter::new(io::stdout().lock());
    let mut line = Vec::new();
    loop {
        line.clear();
        if input.read_until(b'\n', &mut line)? == 0 {
            break;
        }
        let record = match line.split_last() {
            Some((b'\n', text)) => number(text),
            _ => None,
        };
        let Some(x) = record else {
            output.flush()?;
            eprintln!("bad record");
            return Ok(ExitCode::from(1));
        };
        let Some(y) = x.checked_mul(x) else {
            output.flush()?;
            eprintln!("overflow");
            return Ok(ExitCode::from(1));
        };
        writeln!(output, "{y}")?;
    }
    output.flush()?;
    Ok(ExitCode::SUCCESS)
}
