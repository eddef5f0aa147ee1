// A plain Rust twin of the sheet's rules: after every write it recalculates everything.
// Prints for each workload the nanoseconds of a write, and what the last cell of the chain showed, summed up.
use std::time::Instant;

const ROWS: u64 = 40;
const COLS: u64 = 12;

#[derive(Clone, Copy, PartialEq)]
enum CellError {
    DivideByZero,
    OutOfRange,
    Lost,
    Cycle,
}

#[derive(Clone, Copy, PartialEq)]
enum Value {
    Empty,
    Number(u64),
    Error(CellError),
}

#[derive(Clone, Copy)]
enum Aggregate {
    Sum,
    Count,
    Max,
}

#[derive(Clone, Copy)]
enum Operator {
    Add,
    Subtract,
    Multiply,
    Divide,
}

#[derive(Clone, Copy)]
struct Range {
    row: u64,
    rows: u64,
    col: u64,
    cols: u64,
}

#[derive(Clone, Copy)]
enum Token {
    Number(u64),
    Cell(Option<(u64, u64)>),
    Fold(Aggregate, Option<Range>),
    Binary(Operator),
    IfLess,
}

fn read(numbers: &[u64]) -> Vec<Token> {
    use Aggregate::*;
    use Operator::*;
    let token = |n: &[u64]| {
        let range = Range { row: n[1], rows: n[2], col: n[3], cols: n[4] };
        match n[0] {
            0 => Token::Number(n[1]),
            1 => Token::Cell(Some((n[1], n[2]))),
            2 => Token::Cell(None),
            3 => Token::Fold(Sum, Some(range)),
            4 => Token::Fold(Count, Some(range)),
            5 => Token::Fold(Max, Some(range)),
            6 => Token::Fold(Sum, None),
            7 => Token::Fold(Count, None),
            8 => Token::Fold(Max, None),
            9 => Token::Binary(Add),
            10 => Token::Binary(Subtract),
            11 => Token::Binary(Multiply),
            12 => Token::Binary(Divide),
            _ => Token::IfLess,
        }
    };
    numbers.chunks(5).map(token).collect()
}

#[derive(Clone, Copy)]
enum Progress {
    Waiting,
    Open,
    Known(Value),
}

struct Sheet {
    cells: Vec<Vec<Token>>,
    table: Vec<Progress>,
}

impl Sheet {
    fn value(&mut self, row: u64, col: u64) -> Value {
        if row >= ROWS || col >= COLS {
            return Value::Empty;
        }
        let k = (row * COLS + col) as usize;
        match self.table[k] {
            Progress::Known(value) => return value,
            Progress::Open => return Value::Error(CellError::Cycle),
            Progress::Waiting => {}
        }
        self.table[k] = Progress::Open;
        let value = if self.cells[k].is_empty() {
            Value::Empty
        } else {
            match self.work(k, &mut 0) {
                Ok(n) => Value::Number(n),
                Err(error) => Value::Error(error),
            }
        };
        self.table[k] = Progress::Known(value);
        value
    }

    fn number(&mut self, row: u64, col: u64) -> Result<Option<u64>, CellError> {
        match self.value(row, col) {
            Value::Empty => Ok(None),
            Value::Number(n) => Ok(Some(n)),
            Value::Error(error) => Err(error),
        }
    }

    fn fold(&mut self, aggregate: Aggregate, range: Range) -> Result<u64, CellError> {
        let (mut count, mut total, mut largest) = (0u64, 0u128, 0u64);
        for row in range.row..range.row.saturating_add(range.rows).min(ROWS) {
            for col in range.col..range.col.saturating_add(range.cols).min(COLS) {
                if let Some(n) = self.number(row, col)? {
                    count += 1;
                    total += u128::from(n);
                    largest = largest.max(n);
                }
            }
        }
        match aggregate {
            Aggregate::Sum => u64::try_from(total).map_err(|_| CellError::OutOfRange),
            Aggregate::Count => Ok(count),
            Aggregate::Max => Ok(largest),
        }
    }

    // How many tokens a formula has, from this one on.
    fn skip(&self, k: usize, next: &mut usize) {
        let token = self.cells[k][*next];
        *next += 1;
        let needs = match token {
            Token::Binary(_) => 2,
            Token::IfLess => 4,
            _ => 0,
        };
        for _ in 0..needs {
            self.skip(k, next);
        }
    }

    fn work(&mut self, k: usize, next: &mut usize) -> Result<u64, CellError> {
        let token = self.cells[k][*next];
        *next += 1;
        match token {
            Token::Number(n) => Ok(n),
            Token::Cell(None) | Token::Fold(_, None) => Err(CellError::Lost),
            Token::Cell(Some((row, col))) => Ok(self.number(row, col)?.unwrap_or(0)),
            Token::Fold(aggregate, Some(range)) => self.fold(aggregate, range),
            Token::Binary(operator) => {
                let a = self.work(k, next)?;
                let b = self.work(k, next)?;
                match operator {
                    Operator::Add => a.checked_add(b).ok_or(CellError::OutOfRange),
                    Operator::Subtract => a.checked_sub(b).ok_or(CellError::OutOfRange),
                    Operator::Multiply => a.checked_mul(b).ok_or(CellError::OutOfRange),
                    Operator::Divide => a.checked_div(b).ok_or(CellError::DivideByZero),
                }
            }
            Token::IfLess => {
                let a = self.work(k, next)?;
                let b = self.work(k, next)?;
                if a >= b {
                    self.skip(k, next);
                }
                self.work(k, next)
            }
        }
    }

    fn show(&mut self) {
        self.table.fill(Progress::Waiting);
        for k in 0..ROWS * COLS {
            self.value(k / COLS, k % COLS);
        }
    }
}

// The workloads of crates/bench: each cell is the one before it and 1 more, and a chain begins anew every `length` cells.
fn chains(length: u64) -> Sheet {
    let cell = |k: u64| match k.checked_rem(length) {
        Some(0) | None => read(&[0, 1, 0, 0, 0]),
        Some(_) => read(&[9, 0, 0, 0, 0, 1, (k - 1) / COLS, (k - 1) % COLS, 0, 0, 0, 1, 0, 0, 0]),
    };
    let cells: Vec<_> = (0..ROWS * COLS).map(cell).collect();
    let table = vec![Progress::Waiting; cells.len()];
    Sheet { cells, table }
}

fn main() {
    let turns: u64 = std::env::args().nth(1).and_then(|n| n.parse().ok()).unwrap_or(1000).max(1);
    for (name, length) in [("all", 480), ("few", 12), ("half", 240)] {
        let mut sheet = chains(length);
        let mut seen = 0;
        let start = Instant::now();
        for turn in 0..turns {
            sheet.cells[0] = read(&[0, turn % 2, 0, 0, 0]);
            sheet.show();
            if let Progress::Known(Value::Number(n)) = sheet.table[length as usize - 1] {
                seen += n;
            }
        }
        let spent = start.elapsed().as_nanos() as u64 / turns;
        println!("{name} {spent} {seen}");
    }
}
