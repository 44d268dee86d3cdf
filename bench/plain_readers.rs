// Plain Rust beside the proved readers. For bench/run: prints the least nanoseconds of several rounds.
use std::hint::black_box;
use std::time::Instant;

// ---- words of lines

fn words(text: &str) -> Vec<Vec<String>> {
    text.lines().map(|line| line.split_whitespace().map(str::to_owned).collect()).collect()
}

// ---- a table of stencil phases, by recursive descent

#[allow(dead_code)]
enum Expr {
    Num(i64),
    Place(u8),
    Read { field: u32, di: i32, dk: i32, dj: i32 },
    Neg(Box<Expr>),
    Add(Box<Expr>, Box<Expr>),
    Sub(Box<Expr>, Box<Expr>),
    Mul(Box<Expr>, Box<Expr>),
    Div(Box<Expr>, i64),
}

struct Reader<'a> {
    text: &'a [u8],
    at: usize,
}

impl Reader<'_> {
    fn blanks(&mut self) {
        while self.at < self.text.len() && self.text[self.at] == b' ' {
            self.at += 1;
        }
    }

    fn is(&mut self, token: &[u8]) -> bool {
        self.blanks();
        if !self.text[self.at..].starts_with(token) {
            return false;
        }
        self.at += token.len();
        true
    }

    fn number(&mut self) -> Option<i64> {
        self.blanks();
        let start = self.at;
        while self.at < self.text.len() && self.text[self.at].is_ascii_digit() {
            self.at += 1;
        }
        std::str::from_utf8(&self.text[start..self.at]).ok()?.parse().ok()
    }

    fn offset(&mut self) -> Option<i32> {
        let sign = if self.is(b"-") { -1 } else { 1 };
        Some(sign * i32::try_from(self.number()?).ok()?)
    }

    fn name(&mut self) -> &[u8] {
        self.blanks();
        let start = self.at;
        while self.at < self.text.len() && (self.text[self.at].is_ascii_alphanumeric() || self.text[self.at] == b'_') {
            self.at += 1;
        }
        &self.text[start..self.at]
    }

    fn factor(&mut self) -> Option<Expr> {
        if self.is(b"(") {
            let inner = self.expr()?;
            return self.is(b")").then_some(inner);
        }
        if self.is(b"-") {
            return Some(Expr::Neg(Box::new(self.factor()?)));
        }
        self.blanks();
        if self.text.get(self.at)?.is_ascii_digit() {
            return Some(Expr::Num(self.number()?));
        }
        match self.name() {
            b"i" => Some(Expr::Place(0)),
            b"j" => Some(Expr::Place(1)),
            b"k" => Some(Expr::Place(2)),
            b"" => None,
            name => {
                let field = u32::from(name[0] - b'a');
                if !self.is(b"[") {
                    return None;
                }
                let di = self.offset()?;
                self.is(b",");
                let dk = self.offset()?;
                self.is(b",");
                let dj = self.offset()?;
                self.is(b"]").then_some(Expr::Read { field, di, dk, dj })
            }
        }
    }

    fn term(&mut self) -> Option<Expr> {
        let mut left = self.factor()?;
        loop {
            if self.is(b"*") {
                left = Expr::Mul(Box::new(left), Box::new(self.factor()?));
            } else if self.is(b"div ") {
                left = Expr::Div(Box::new(left), self.number()?);
            } else {
                return Some(left);
            }
        }
    }

    fn expr(&mut self) -> Option<Expr> {
        let mut left = self.term()?;
        loop {
            if self.is(b"+") {
                left = Expr::Add(Box::new(left), Box::new(self.term()?));
            } else if self.is(b"-") {
                left = Expr::Sub(Box::new(left), Box::new(self.term()?));
            } else {
                return Some(left);
            }
        }
    }
}

fn table(text: &str) -> Vec<Expr> {
    let mut phases = Vec::new();
    for line in text.lines() {
        let start = line.find('=').map_or(0, |place| place + 1);
        let mut reader = Reader { text: line.as_bytes(), at: start };
        phases.push(reader.expr().expect("an expression"));
    }
    phases
}

// ---- numbers of a netCDF file

fn numbers(bytes: &[u8]) -> Vec<i32> {
    bytes.chunks_exact(4).map(|four| i32::from_be_bytes(four.try_into().expect("four bytes"))).collect()
}

fn least(rounds: u32, mut work: impl FnMut()) -> u128 {
    (0..rounds)
        .map(|_| {
            let start = Instant::now();
            work();
            start.elapsed().as_nanos()
        })
        .min()
        .unwrap_or(0)
}

fn main() {
    let words_of: Vec<String> = std::env::args().skip(1).collect();
    let rounds = words_of[1].parse().expect("a number of rounds");
    let file = || std::fs::read_to_string(&words_of[2]).expect("a text");
    let nanoseconds = match words_of[0].as_str() {
        "registry" => {
            let text = file();
            least(rounds, || drop(black_box(words(&text))))
        }
        "table" => {
            let text = file();
            least(rounds, || drop(black_box(table(&text))))
        }
        "numbers" => {
            let bytes = std::fs::read(&words_of[2]).expect("a file");
            least(rounds, || drop(black_box(numbers(&bytes))))
        }
        _ => 0,
    };
    println!("{nanoseconds}");
}
