// A plain program to compare with: reads records by the rules of docs/language.md, refuses the first that hasn't one
// number, squares the others with an overflow check, and prints them. It ends with the program's messages and statuses.
use std::io;
use std::process::ExitCode;

mod number;
mod records;

fn square(numbers: &[i64], results: &mut Vec<i64>) -> Result<(), String> {
    let [x] = numbers else {
        return Err(format!("record of {} numbers, 1 wanted", numbers.len()));
    };
    results.push(x.checked_mul(*x).ok_or("overflow")?);
    Ok(())
}

fn main() -> io::Result<ExitCode> {
    records::run(square)
}
