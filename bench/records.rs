// Works on records by the rules of docs/language.md, with the program's limits, refusals, messages and statuses.
use crate::number::value;
use std::io::{self, BufRead, BufReader, BufWriter, Read, Write};
use std::process::ExitCode;

const MOST_LINES: u64 = 4_294_967_295;
const MOST_BYTES: u64 = 33_554_432;
const MOST_NUMBERS: usize = 1_048_576;

fn number(word: &[u8]) -> Option<i64> {
    let (negative, digits) = match word {
        [b'-', digits @ ..] => (true, digits),
        [b'+', digits @ ..] => (false, digits),
        digits => (false, digits),
    };
    value(negative, digits)
}

// The numbers of a line without its LF, or why it is refused.
fn read_record(line: &[u8], numbers: &mut Vec<i64>) -> Result<(), &'static str> {
    if line.len() as u64 > MOST_BYTES {
        return Err("line too long");
    }
    let text = line.strip_suffix(b"\r").unwrap_or(line);
    let mut count = 0;
    numbers.clear();
    for word in text.split(|b| *b == b' ' || *b == b'\t') {
        if word.is_empty() {
            continue;
        }
        let x = number(word).ok_or("bad record")?;
        count += 1;
        if count <= MOST_NUMBERS {
            numbers.push(x);
        }
    }
    if count > MOST_NUMBERS {
        return Err("too many numbers");
    }
    Ok(())
}

fn write_record(output: &mut impl Write, numbers: &[i64]) -> io::Result<()> {
    if let [first, rest @ ..] = numbers {
        write!(output, "{first}")?;
        for x in rest {
            write!(output, " {x}")?;
        }
    }
    output.write_all(b"\n")
}

// Reads the records of the standard input and writes the results of each, up to the first that is refused or faults.
// `work` appends the results of a record to an empty list, or says what its fault is.
pub fn run<F>(work: F) -> io::Result<ExitCode>
where
    F: Fn(&[i64], &mut Vec<i64>) -> Result<(), String>,
{
    let mut input = BufReader::new(io::stdin().lock());
    let mut output = BufWriter::new(io::stdout().lock());
    let mut line = Vec::new();
    let mut numbers = Vec::new();
    let mut results = Vec::new();
    let mut n: u64 = 0;
    let fault = loop {
        line.clear();
        // A line with its LF, or one byte more than a line may have before it.
        if input.by_ref().take(MOST_BYTES + 1).read_until(b'\n', &mut line)? == 0 {
            output.flush()?;
            return Ok(ExitCode::SUCCESS);
        }
        n += 1;
        if n > MOST_LINES {
            break String::from("too many lines");
        }
        let bytes = line.strip_suffix(b"\n").unwrap_or(&line);
        if let Err(why) = read_record(bytes, &mut numbers) {
            break format!("line {n}: {why}");
        }
        results.clear();
        if let Err(why) = work(&numbers, &mut results) {
            break format!("stage 1: {why}");
        }
        write_record(&mut output, &results)?;
    };
    output.flush()?;
    eprintln!("muesli: {fault}");
    Ok(ExitCode::from(1))
}
