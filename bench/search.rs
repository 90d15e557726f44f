// Plain recursions over the trees of a division and of two searches, with the checks of the language, to compare with
// `search.sh`. Functions are evaluated by a plain walk over their trees. Reads a record on each line, and writes of each
// what its argument says:
//
//     range    the sum of the numbers from a to b - 1, by halves of the range
//     leaves   the best leaf of a complete tree, where nothing is dropped
//     pack     what is left out of a sack at least, where a node is dropped whose bound isn't below the best value
use std::env;
use std::io::{self, BufRead, BufReader, BufWriter, Write};
use std::process::ExitCode;

const MOST_NODES: u64 = 10_000_000;
const MOST_LEVELS: usize = 64;
const GREATEST: i64 = i64::MAX;

#[derive(Clone, Copy)]
enum Op {
    Add,
    Sub,
    Mul,
    Div,
    Rem,
    Eq,
    Le,
    Ge,
    Max,
}

enum Expr {
    Lit(i64),
    Slot(usize),
    Bin(Op, Box<Expr>, Box<Expr>),
    If(Box<Expr>, Box<Expr>, Box<Expr>),
    Call(usize, Vec<Expr>),
}

// Its results, over the functions before it.
struct Fun(Vec<Expr>);

#[derive(Debug)]
enum Fault {
    Overflow,
    DivZero,
    Steps,
    Depth,
    BoundBroken,
    Value,
    Count,
}

struct Scope {
    values: [i64; 32],
    len: usize,
}

impl Scope {
    fn of(xs: &[i64]) -> Scope {
        let mut scope = Scope {
            values: [0; 32],
            len: 0,
        };
        for x in xs {
            scope.push(*x);
        }
        scope
    }

    fn push(&mut self, x: i64) {
        self.values[self.len] = x;
        self.len += 1;
    }
}

fn operate(op: Op, x: i64, y: i64) -> Result<i64, Fault> {
    match op {
        Op::Add => x.checked_add(y).ok_or(Fault::Overflow),
        Op::Sub => x.checked_sub(y).ok_or(Fault::Overflow),
        Op::Mul => x.checked_mul(y).ok_or(Fault::Overflow),
        Op::Div | Op::Rem if y == 0 => Err(Fault::DivZero),
        Op::Div => x.checked_div(y).ok_or(Fault::Overflow),
        Op::Rem => x.checked_rem(y).ok_or(Fault::Overflow),
        Op::Eq => Ok(i64::from(x == y)),
        Op::Le => Ok(i64::from(x <= y)),
        Op::Ge => Ok(i64::from(x >= y)),
        Op::Max => Ok(x.max(y)),
    }
}

fn value(funs: &[Fun], e: &Expr, scope: &mut Scope, nodes: &mut u64) -> Result<i64, Fault> {
    if *nodes >= MOST_NODES {
        return Err(Fault::Steps);
    }
    *nodes += 1;
    match e {
        Expr::Lit(n) => Ok(*n),
        Expr::Slot(at) => Ok(scope.values[*at]),
        Expr::Bin(op, a, b) => {
            let x = value(funs, a, scope, nodes)?;
            let y = value(funs, b, scope, nodes)?;
            operate(*op, x, y)
        }
        Expr::If(c, a, b) => {
            if value(funs, c, scope, nodes)? != 0 {
                value(funs, a, scope, nodes)
            } else {
                value(funs, b, scope, nodes)
            }
        }
        Expr::Call(f, args) => {
            let mut inner = Scope::of(&[]);
            for arg in args {
                let x = value(funs, arg, scope, nodes)?;
                inner.push(x);
            }
            value(funs, &funs[*f].0[0], &mut inner, nodes)
        }
    }
}

// The results of a function at numbers, and one more.
fn call(funs: &[Fun], f: usize, xs: &[i64], more: Option<i64>) -> Result<Numbers, Fault> {
    let mut scope = Scope::of(xs);
    if let Some(x) = more {
        scope.push(x);
    }
    let mut nodes = 0;
    let mut out = Numbers {
        values: [0; 16],
        len: 0,
    };
    for e in &funs[f].0 {
        out.values[out.len] = value(funs, e, &mut scope, &mut nodes)?;
        out.len += 1;
    }
    Ok(out)
}

// At most 16 numbers.
#[derive(Clone, Copy)]
struct Numbers {
    values: [i64; 16],
    len: usize,
}

impl Numbers {
    fn get(&self) -> &[i64] {
        &self.values[..self.len]
    }
}

fn number(funs: &[Fun], f: usize, xs: &[i64]) -> Result<i64, Fault> {
    Ok(call(funs, f, xs, None)?.values[0])
}

// ---- the functions

fn lit(n: i64) -> Expr {
    Expr::Lit(n)
}

fn slot(at: usize) -> Expr {
    Expr::Slot(at)
}

fn bin(op: Op, a: Expr, b: Expr) -> Expr {
    Expr::Bin(op, Box::new(a), Box::new(b))
}

fn choice(c: Expr, a: Expr, b: Expr) -> Expr {
    Expr::If(Box::new(c), Box::new(a), Box::new(b))
}

// simple, solve, divide, combine
fn range() -> Vec<Fun> {
    let width = || bin(Op::Sub, slot(1), slot(0));
    let first = || bin(Op::Eq, slot(2), lit(0));
    let middle = || bin(Op::Div, bin(Op::Add, slot(0), slot(1)), lit(2));
    vec![
        Fun(vec![bin(Op::Le, width(), lit(1))]),
        Fun(vec![choice(bin(Op::Eq, width(), lit(1)), slot(0), lit(0))]),
        Fun(vec![
            choice(first(), slot(0), middle()),
            choice(first(), middle(), slot(1)),
        ]),
        Fun(vec![bin(Op::Add, slot(0), slot(1))]),
    ]
}

// bound, solved, value, count, branch
fn leaves() -> Vec<Fun> {
    let mixed = bin(Op::Add, bin(Op::Mul, slot(1), lit(7919)), lit(13));
    vec![
        Fun(vec![lit(0)]),
        Fun(vec![bin(Op::Ge, slot(0), lit(19))]),
        Fun(vec![bin(Op::Rem, mixed, lit(1_000_003))]),
        Fun(vec![lit(2)]),
        Fun(vec![
            bin(Op::Add, slot(0), lit(1)),
            bin(Op::Add, bin(Op::Mul, lit(2), slot(1)), slot(2)),
        ]),
    ]
}

// A node is how many of 30 things were looked at, what is left of the room, the value that was left out, and that of the
// things to come. The functions are weight, worth, bound, solved, value, count and branch.
fn pack() -> Vec<Fun> {
    let weight = bin(
        Op::Add,
        lit(30),
        bin(Op::Rem, bin(Op::Mul, slot(0), lit(37)), lit(41)),
    );
    let worth = bin(
        Op::Div,
        bin(
            Op::Mul,
            Expr::Call(0, vec![slot(0)]),
            bin(Op::Sub, lit(90), bin(Op::Mul, lit(2), slot(0))),
        ),
        lit(10),
    );
    let of = |f: usize| Expr::Call(f, vec![slot(0)]);
    let whole = || bin(Op::Eq, slot(0), lit(30));
    let fitting = bin(Op::Div, bin(Op::Mul, slot(1), of(1)), of(0));
    let low = bin(
        Op::Add,
        slot(2),
        bin(Op::Max, lit(0), bin(Op::Sub, slot(3), fitting)),
    );
    vec![
        Fun(vec![weight]),
        Fun(vec![worth]),
        Fun(vec![choice(whole(), slot(2), low)]),
        Fun(vec![whole()]),
        Fun(vec![slot(2)]),
        Fun(vec![choice(bin(Op::Ge, slot(1), of(0)), lit(2), lit(1))]),
        Fun(vec![
            bin(Op::Add, slot(0), lit(1)),
            choice(kept(), slot(1), bin(Op::Sub, slot(1), of(0))),
            choice(kept(), bin(Op::Add, slot(2), of(1)), slot(2)),
            bin(Op::Sub, slot(3), of(1)),
        ]),
    ]
}

// Child 0 of two takes the thing, the last child leaves it out.
fn kept() -> Expr {
    choice(
        bin(Op::Eq, slot(4), lit(1)),
        lit(1),
        choice(bin(Op::Ge, slot(1), Expr::Call(0, vec![slot(0)])), lit(0), lit(1)),
    )
}

// ---- the trees

fn solve(funs: &[Fun], x: &[i64], level: usize) -> Result<Numbers, Fault> {
    if number(funs, 0, x)? != 0 {
        return call(funs, 1, x, None);
    }
    if level == MOST_LEVELS {
        return Err(Fault::Depth);
    }
    let a = call(funs, 2, x, Some(0))?;
    let b = call(funs, 2, x, Some(1))?;
    let a = solve(funs, a.get(), level + 1)?;
    let b = solve(funs, b.get(), level + 1)?;
    let mut all = a;
    for y in b.get() {
        all.values[all.len] = *y;
        all.len += 1;
    }
    call(funs, 3, all.get(), None)
}

struct Search {
    funs: Vec<Fun>,
    // where bound, solved, value, count and branch stand
    from: usize,
    drops: bool,
    best: Option<(i64, Numbers)>,
}

impl Search {
    fn visit(&mut self, x: &Numbers, above: Option<i64>, level: usize) -> Result<(), Fault> {
        let low = number(&self.funs, self.from, x.get())?;
        if above.is_some_and(|up| low < up) {
            return Err(Fault::BoundBroken);
        }
        if self.drops && self.best.is_some_and(|(v, _)| low >= v) {
            return Ok(());
        }
        if number(&self.funs, self.from + 1, x.get())? != 0 {
            return self.solution(x, low);
        }
        let count = number(&self.funs, self.from + 3, x.get())?;
        if !(0..=64).contains(&count) {
            return Err(Fault::Count);
        }
        if count > 0 && level == MOST_LEVELS {
            return Err(Fault::Depth);
        }
        let mut children = [*x; 2];
        for k in 0..count {
            children[k as usize] = call(&self.funs, self.from + 4, x.get(), Some(k))?;
        }
        for child in &children[..count as usize] {
            self.visit(child, Some(low), level + 1)?;
        }
        Ok(())
    }

    fn solution(&mut self, x: &Numbers, low: i64) -> Result<(), Fault> {
        let value = number(&self.funs, self.from + 2, x.get())?;
        if value < low {
            return Err(Fault::BoundBroken);
        }
        if value == GREATEST {
            return Err(Fault::Value);
        }
        if self.best.is_none_or(|(v, _)| value < v) {
            self.best = Some((value, *x));
        }
        Ok(())
    }
}

fn found(funs: Vec<Fun>, from: usize, drops: bool, x: &Numbers) -> Result<Vec<i64>, Fault> {
    let mut search = Search {
        funs,
        from,
        drops,
        best: None,
    };
    search.visit(x, None, 0)?;
    Ok(search.best.map_or(vec![], |(v, y)| {
        let mut all = vec![v];
        all.extend(y.get());
        all
    }))
}

fn record(line: &str) -> Numbers {
    let mut x = Numbers {
        values: [0; 16],
        len: 0,
    };
    for word in line.split_whitespace() {
        x.values[x.len] = word.parse().expect("a number");
        x.len += 1;
    }
    x
}

fn main() -> io::Result<ExitCode> {
    let what = env::args().nth(1).unwrap_or_default();
    let mut output = BufWriter::new(io::stdout().lock());
    for line in BufReader::new(io::stdin().lock()).lines() {
        let x = record(&line?);
        let made = match what.as_str() {
            "range" => solve(&range(), x.get(), 0).map(|y| y.get().to_vec()),
            "leaves" => found(leaves(), 0, false, &x),
            _ => found(pack(), 2, true, &x),
        };
        match made {
            Ok(ys) => {
                let words: Vec<String> = ys.iter().map(i64::to_string).collect();
                writeln!(output, "{}", words.join(" "))?;
            }
            Err(fault) => {
                output.flush()?;
                eprintln!("{fault:?}");
                return Ok(ExitCode::from(1));
            }
        }
    }
    output.flush()?;
    Ok(ExitCode::SUCCESS)
}
