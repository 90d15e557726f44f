// Evaluates one function at each record by a plain walk over its tree, with the checks of the language.
use std::io::{self, BufRead, BufReader, BufWriter, Write};
use std::process::ExitCode;

const MOST_NODES: u64 = 10_000_000;

#[derive(Clone, Copy)]
enum Op {
    Add,
    Mul,
    Rem,
}

enum Expr {
    Lit(i64),
    Slot(usize),
    Bin(Op, Box<Expr>, Box<Expr>),
    Loop(Box<Expr>, Box<Expr>, Box<Expr>),
}

#[derive(Debug)]
enum Fault {
    Overflow,
    DivZero,
    Steps,
}

struct Scope {
    values: [i64; 32],
    len: usize,
}

impl Scope {
    fn push(&mut self, x: i64) {
        self.values[self.len] = x;
        self.len += 1;
    }
}

fn operate(op: Op, x: i64, y: i64) -> Result<i64, Fault> {
    match op {
        Op::Add => x.checked_add(y).ok_or(Fault::Overflow),
        Op::Mul => x.checked_mul(y).ok_or(Fault::Overflow),
        Op::Rem if y == 0 => Err(Fault::DivZero),
        Op::Rem => x.checked_rem(y).ok_or(Fault::Overflow),
    }
}

fn value(e: &Expr, scope: &mut Scope, nodes: &mut u64) -> Result<i64, Fault> {
    if *nodes >= MOST_NODES {
        return Err(Fault::Steps);
    }
    *nodes += 1;
    match e {
        Expr::Lit(n) => Ok(*n),
        Expr::Slot(at) => Ok(scope.values[*at]),
        Expr::Bin(op, a, b) => {
            let x = value(a, scope, nodes)?;
            let y = value(b, scope, nodes)?;
            operate(*op, x, y)
        }
        Expr::Loop(n, s, e) => {
            let count = value(n, scope, nodes)?;
            let mut last = value(s, scope, nodes)?;
            for i in 0..count {
                scope.push(i);
                scope.push(last);
                last = value(e, scope, nodes)?;
                scope.len -= 2;
            }
            Ok(last)
        }
    }
}

fn bin(op: Op, a: Expr, b: Expr) -> Expr {
    Expr::Bin(op, Box::new(a), Box::new(b))
}

// loop i below 10000, a = x in (a * 31 + i) % 1000003
fn function() -> Expr {
    let product = bin(Op::Mul, Expr::Slot(2), Expr::Lit(31));
    let sum = bin(Op::Add, product, Expr::Slot(1));
    let turn = bin(Op::Rem, sum, Expr::Lit(1_000_003));
    Expr::Loop(
        Box::new(Expr::Lit(10_000)),
        Box::new(Expr::Slot(0)),
        Box::new(turn),
    )
}

fn main() -> io::Result<ExitCode> {
    let f = function();
    let mut output = BufWriter::new(io::stdout().lock());
    for line in BufReader::new(io::stdin().lock()).lines() {
        let Ok(x) = line?.parse() else {
            output.flush()?;
            eprintln!("bad record");
            return Ok(ExitCode::from(1));
        };
        let mut scope = Scope {
            values: [0; 32],
            len: 0,
        };
        scope.push(x);
        match value(&f, &mut scope, &mut 0) {
            Ok(y) => writeln!(output, "{y}")?,
            Err(fault) => {
                output.flush()?;
                eprintln!("{fault:?}");
                return Ok(ExitCode::from(1));
            }
        }
    }
    output.flush()?;
    Ok(ExitCode::SUCCESS)
}
