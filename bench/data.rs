// A plain program to compare with data programs: reads records by the rules of docs/language.md, and writes of each what
// its arguments say, up to the first that is no number of 64 bits or has no such result. It ends with the program's
// messages and statuses.
//
//     sum, scan, map      the sum, the sums up to each number, each number and 1
//     permute K           each number at place i * K modulo 1,000,000, counted from 0
//     matrix-map          each number and 1 of a matrix of 1,000 rows and columns
//     transpose           its columns as rows
//     rotate-rows P Q     in P by Q blocks, those of block row s moved s places to the left, and round
//     rotate-cols P Q     those of block column t moved t places up, and round
use std::env;
use std::io;
use std::process::ExitCode;

mod number;
mod records;

// A sum, where it is a number of 64 bits. Those on the way to it may lie outside.
fn settled(sum: i128) -> Result<i64, String> {
    i64::try_from(sum).map_err(|_| String::from("overflow"))
}

fn sum(numbers: &[i64], results: &mut Vec<i64>) -> Result<(), String> {
    let sum = numbers.iter().map(|x| i128::from(*x)).sum();
    results.push(settled(sum)?);
    Ok(())
}

fn scan(numbers: &[i64], results: &mut Vec<i64>) -> Result<(), String> {
    let mut sum = 0;
    results.reserve(numbers.len());
    for x in numbers {
        sum += i128::from(*x);
        results.push(settled(sum)?);
    }
    Ok(())
}

fn map(numbers: &[i64], results: &mut Vec<i64>) -> Result<(), String> {
    results.reserve(numbers.len());
    for x in numbers {
        results.push(x.checked_add(1).ok_or("overflow")?);
    }
    Ok(())
}

const SIDE: usize = 1_000;

// Rows and columns that are turned at once, so that both matrices stay near.
const TILE: usize = 32;

const PLACES: i64 = 1_000_000;

fn permute(k: i64, numbers: &[i64], results: &mut Vec<i64>) -> Result<(), String> {
    let mut taken = vec![false; numbers.len()];
    let mut one_to_one = true;
    results.resize(numbers.len(), 0);
    for (i, x) in (0i64..).zip(numbers) {
        let to = i.checked_mul(k).ok_or("overflow")? % PLACES;
        match usize::try_from(to) {
            Ok(to) if to < taken.len() && !taken[to] => {
                taken[to] = true;
                results[to] = *x;
            }
            _ => one_to_one = false,
        }
    }
    if one_to_one {
        Ok(())
    } else {
        Err(String::from("not a permutation"))
    }
}

// The numbers of the matrix, which are the first of a record.
fn matrix(numbers: &[i64]) -> Result<&[i64], String> {
    numbers
        .get(..SIDE * SIDE)
        .ok_or_else(|| format!("record of {} numbers, {} wanted", numbers.len(), SIDE * SIDE))
}

fn transpose(numbers: &[i64], results: &mut Vec<i64>) -> Result<(), String> {
    let matrix = matrix(numbers)?;
    results.resize(matrix.len(), 0);
    for top in (0..SIDE).step_by(TILE) {
        for left in (0..SIDE).step_by(TILE) {
            for c in left..SIDE.min(left + TILE) {
                for r in top..SIDE.min(top + TILE) {
                    results[c * SIDE + r] = matrix[r * SIDE + c];
                }
            }
        }
    }
    Ok(())
}

// Where block j begins.
fn begin(blocks: usize, j: usize) -> usize {
    j * (SIDE / blocks) + j.min(SIDE % blocks)
}

// How many rows or columns the blocks with number j move, which all have the same of them.
fn turn(blocks: usize, j: usize) -> Result<usize, String> {
    let j = i64::try_from(j).map_err(|_| "overflow")?;
    let by = j.checked_neg().ok_or("overflow")?;
    Ok(by.rem_euclid(blocks as i64) as usize * (SIDE / blocks))
}

fn turns(number: usize, blocks: usize) -> Result<Vec<usize>, String> {
    if SIDE % blocks != 0 {
        return Err(String::from("blocks differ in size"));
    }
    (0..number).map(|j| turn(blocks, j)).collect()
}

fn rotate_rows(
    (p, q): (usize, usize),
    numbers: &[i64],
    results: &mut Vec<i64>,
) -> Result<(), String> {
    let matrix = matrix(numbers)?;
    results.reserve(matrix.len());
    for (s, by) in turns(p, q)?.into_iter().enumerate() {
        for r in begin(p, s)..begin(p, s + 1) {
            let row = &matrix[r * SIDE..][..SIDE];
            results.extend_from_slice(&row[SIDE - by..]);
            results.extend_from_slice(&row[..SIDE - by]);
        }
    }
    Ok(())
}

fn rotate_cols(
    (p, q): (usize, usize),
    numbers: &[i64],
    results: &mut Vec<i64>,
) -> Result<(), String> {
    let matrix = matrix(numbers)?;
    let turns = turns(q, p)?;
    results.reserve(matrix.len());
    for r in 0..SIDE {
        for (t, by) in turns.iter().enumerate() {
            let row = &matrix[(r + SIDE - by) % SIDE * SIDE..];
            results.extend_from_slice(&row[begin(q, t)..begin(q, t + 1)]);
        }
    }
    Ok(())
}

// A number above 0 among the arguments.
fn argument(arguments: &[String], i: usize) -> Option<usize> {
    arguments.get(i)?.parse().ok().filter(|n| *n > 0)
}

fn grid(arguments: &[String]) -> Option<(usize, usize)> {
    Some((argument(arguments, 2)?, argument(arguments, 3)?))
}

fn work(arguments: &[String]) -> Option<io::Result<ExitCode>> {
    let done = match arguments.get(1)?.as_str() {
        "sum" => records::run(sum),
        "scan" => records::run(scan),
        "map" => records::run(map),
        "permute" => {
            let k = argument(arguments, 2)? as i64;
            records::run(|numbers, results| permute(k, numbers, results))
        }
        "matrix-map" => records::run(|numbers, results| map(matrix(numbers)?, results)),
        "transpose" => records::run(transpose),
        "rotate-rows" => {
            let grid = grid(arguments)?;
            records::run(|numbers, results| rotate_rows(grid, numbers, results))
        }
        "rotate-cols" => {
            let grid = grid(arguments)?;
            records::run(|numbers, results| rotate_cols(grid, numbers, results))
        }
        _ => return None,
    };
    Some(done)
}

fn main() -> io::Result<ExitCode> {
    let arguments: Vec<String> = env::args().collect();
    work(&arguments).unwrap_or_else(|| {
        eprintln!("usage: data sum|scan|map|matrix-map|transpose, permute K, rotate-rows P Q or rotate-cols P Q");
        Ok(ExitCode::from(2))
    })
}
