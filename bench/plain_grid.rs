// A run of a table on one whole domain, written plainly in Rust: the input file is read, the phases are stepped point by
// point by a walk over their trees with checked arithmetic, and the history file is written. The table is the base one, or
// with the word `relax` one phase that calls this function. For bench/run. Prints the nanoseconds of the walk, and those of
// writing the bytes of the records alone.
use std::fs::{self, File};
use std::hint::black_box;
use std::io::{Seek, SeekFrom, Write};
use std::time::Instant;

const INPUT: &str = "wrfinput_d01";
const OUTPUT: &str = "wrfout_d01_2000-01-01_00:00:00";

// ---- expressions

#[derive(Clone, Copy)]
#[allow(dead_code)]
enum Test {
    Less,
    AtMost,
    Equal,
}

// All that a table can say; the two tables use a part of it.
#[allow(dead_code)]
enum Expr {
    Num(u64),
    I,
    J,
    K,
    Step,
    Read { field: u32, di: i32, dk: i32, dj: i32 },
    Neg(Box<Expr>),
    Add(Box<Expr>, Box<Expr>),
    Sub(Box<Expr>, Box<Expr>),
    Mul(Box<Expr>, Box<Expr>),
    Div(Box<Expr>, u64),
    Mod(Box<Expr>, u64),
    Min(Box<Expr>, Box<Expr>),
    Max(Box<Expr>, Box<Expr>),
    If { test: Test, left: Box<Expr>, right: Box<Expr>, yes: Box<Expr>, no: Box<Expr> },
    Call { id: u32, arguments: Vec<Expr> },
}

// What the stored functions answer, by their numbers.
fn answer(id: u32, arguments: &[i64]) -> i64 {
    let (x, y, z) = (arguments[0], arguments[1], arguments[2]);
    match id {
        0 => x.max(y).min(z),
        _ if z < 1 => x,
        _ => (i128::from(x) + (i128::from(y) - i128::from(x)).div_euclid(i128::from(z))) as i64,
    }
}

// A level of a field: nz levels of ny rows of nx points.
struct Level {
    nx: u32,
    ny: u32,
    numbers: Vec<i32>,
}

impl Level {
    fn place(&self, k: i64, j: i64, i: i64) -> usize {
        (((k - 1) * i64::from(self.ny) + (j - 1)) * i64::from(self.nx) + (i - 1)) as usize
    }
}

struct Point<'a> {
    levels: &'a [Level],
    step: u64,
    k: u32,
    j: u32,
    i: u32,
}

impl Point<'_> {
    fn read(&self, field: u32, di: i32, dk: i32, dj: i32) -> i32 {
        let level = &self.levels[field as usize];
        let k = i64::from(self.k) + i64::from(dk);
        let j = i64::from(self.j) + i64::from(dj);
        let i = i64::from(self.i) + i64::from(di);
        level.numbers[level.place(k, j, i)]
    }
}

fn value(expr: &Expr, at: &Point) -> Option<i64> {
    match expr {
        Expr::Num(n) => i64::try_from(*n).ok(),
        Expr::I => Some(i64::from(at.i)),
        Expr::J => Some(i64::from(at.j)),
        Expr::K => Some(i64::from(at.k)),
        Expr::Step => i64::try_from(at.step).ok(),
        Expr::Read { field, di, dk, dj } => Some(i64::from(at.read(*field, *di, *dk, *dj))),
        Expr::Neg(a) => value(a, at)?.checked_neg(),
        Expr::Add(a, b) => value(a, at)?.checked_add(value(b, at)?),
        Expr::Sub(a, b) => value(a, at)?.checked_sub(value(b, at)?),
        Expr::Mul(a, b) => value(a, at)?.checked_mul(value(b, at)?),
        Expr::Div(a, n) => value(a, at)?.checked_div_euclid(i64::try_from(*n).ok()?),
        Expr::Mod(a, n) => value(a, at)?.checked_rem_euclid(i64::try_from(*n).ok()?),
        Expr::Min(a, b) => Some(value(a, at)?.min(value(b, at)?)),
        Expr::Max(a, b) => Some(value(a, at)?.max(value(b, at)?)),
        Expr::If { test, left, right, yes, no } => {
            let (left, right) = (value(left, at)?, value(right, at)?);
            let holds = match test {
                Test::Less => left < right,
                Test::AtMost => left <= right,
                Test::Equal => left == right,
            };
            value(if holds { yes } else { no }, at)
        }
        Expr::Call { id, arguments } => {
            let mut numbers = [0; 8];
            for (number, argument) in numbers.iter_mut().zip(arguments) {
                *number = value(argument, at)?;
            }
            Some(answer(*id, &numbers[..arguments.len()]))
        }
    }
}

// ---- the tables

fn read(di: i32, dj: i32) -> Box<Expr> {
    Box::new(Expr::Read { field: 0, di, dk: 0, dj })
}

fn sum(a: Box<Expr>, b: Box<Expr>) -> Box<Expr> {
    Box::new(Expr::Add(a, b))
}

struct Phase {
    writes: usize,
    margin_x: u32,
    margin_y: u32,
    expr: Expr,
}

fn relax_table() -> Vec<Phase> {
    let arguments = vec![*read(0, 0), Expr::Num(100), Expr::Num(4)];
    vec![Phase { writes: 0, margin_x: 0, margin_y: 0, expr: Expr::Call { id: 1, arguments } }]
}

fn base_table() -> Vec<Phase> {
    let four = Box::new(Expr::Mul(Box::new(Expr::Num(4)), read(0, 0)));
    let five = sum(sum(sum(sum(four, read(-1, 0)), read(1, 0)), read(0, -1)), read(0, 1));
    let two = Expr::Add(read(-1, 0), read(1, 0));
    vec![
        Phase { writes: 0, margin_x: 1, margin_y: 1, expr: Expr::Div(five, 8) },
        Phase { writes: 1, margin_x: 2, margin_y: 1, expr: two },
    ]
}

// ---- stepping

// The new numbers of a level are made from the old ones of all levels, and then they are set.
fn run_phase(levels: &mut [Level], scratch: &mut Vec<i32>, phase: &Phase, step: u64) -> Option<()> {
    let level = &levels[phase.writes];
    let (nx, ny) = (level.nx, level.ny);
    scratch.clear();
    for j in 1..=ny {
        for i in 1..=nx {
            let is_inside = phase.margin_x < i && i <= nx - phase.margin_x && phase.margin_y < j && j <= ny - phase.margin_y;
            let number = if is_inside {
                i32::try_from(value(&phase.expr, &Point { levels, step, k: 1, j, i })?).ok()?
            } else {
                level.numbers[level.place(1, i64::from(j), i64::from(i))]
            };
            scratch.push(number);
        }
    }
    levels[phase.writes].numbers.copy_from_slice(scratch);
    Some(())
}

// ---- the history file

fn word(out: &mut Vec<u8>, n: u32) {
    out.extend_from_slice(&n.to_be_bytes());
}

fn text(out: &mut Vec<u8>, bytes: &[u8]) {
    word(out, bytes.len() as u32);
    out.extend_from_slice(bytes);
    while out.len() % 4 != 0 {
        out.push(0);
    }
}

fn text_att(out: &mut Vec<u8>, name: &[u8], value: &[u8]) {
    text(out, name);
    word(out, 2);
    text(out, value);
}

fn int_att(out: &mut Vec<u8>, name: &[u8], n: u32) {
    text(out, name);
    for n in [4, 1, n] {
        word(out, n);
    }
}

fn header(nx: u32, ny: u32) -> Vec<u8> {
    let mut out = b"CDF\x01".to_vec();
    for n in [0, 10, 4] {
        word(&mut out, n);
    }
    for (name, len) in [(&b"Time"[..], 0), (b"DateStrLen", 19), (b"west_east", nx), (b"south_north", ny)] {
        text(&mut out, name);
        word(&mut out, len);
    }
    word(&mut out, 12);
    word(&mut out, 2);
    text_att(&mut out, b"START_DATE", b"2000-01-01_00:00:00");
    int_att(&mut out, b"GRID_ID", 1);
    word(&mut out, 11);
    word(&mut out, 3);
    text(&mut out, b"Times");
    for n in [2, 0, 1, 0, 0, 2, 20, 544] {
        word(&mut out, n);
    }
    for (name, begin) in [(b"A", 564), (b"B", 564 + 4 * nx * ny)] {
        text(&mut out, name);
        for n in [3, 0, 3, 2, 12, 5] {
            word(&mut out, n);
        }
        int_att(&mut out, b"FieldType", 106);
        text_att(&mut out, b"MemoryOrder", b"XY ");
        for name in [&b"description"[..], b"units", b"stagger"] {
            text_att(&mut out, name, b"");
        }
        for n in [4, 4 * nx * ny, begin] {
            word(&mut out, n);
        }
    }
    out
}

fn numbers(bytes: &[u8]) -> Vec<i32> {
    bytes.chunks_exact(4).map(|four| i32::from_be_bytes(four.try_into().expect("four bytes"))).collect()
}

fn record(out: &mut Vec<u8>, time: &str, levels: &[Level]) {
    out.clear();
    out.extend_from_slice(time.as_bytes());
    for level in levels {
        out.extend(level.numbers.iter().flat_map(|n| n.to_be_bytes()));
    }
}

// The bytes at the end of the file, and then the number of records.
fn append(file: &mut File, bytes: &[u8], count: u32) {
    file.seek(SeekFrom::End(0)).expect("the end");
    file.write_all(bytes).expect("the bytes");
    file.seek(SeekFrom::Start(4)).expect("the count");
    file.write_all(&count.to_be_bytes()).expect("the count");
}

// NX NY STEPS EVERY [relax]: a frame at the start and after each so many steps; 0 for none.
fn main() {
    let words: Vec<String> = std::env::args().skip(1).collect();
    let n: Vec<u32> = words[..4].iter().map(|w| w.parse().expect("a number")).collect();
    let (nx, ny, steps, every) = (n[0], n[1], n[2], n[3]);
    let bytes = fs::read(INPUT).expect("an input file");
    let a = numbers(&bytes[400..400 + 4 * nx as usize * ny as usize]);
    let b = vec![0; a.len()];
    drop(bytes);
    let mut scratch = Vec::with_capacity(a.len());
    let mut levels = [Level { nx, ny, numbers: a }, Level { nx, ny, numbers: b }];
    let is_relax = words.get(4).is_some_and(|word| word == "relax");
    let phases = black_box(if is_relax { relax_table() } else { base_table() });
    let mut file = None;
    let mut bytes = Vec::new();
    let (mut walk, mut copy, mut count) = (0, 0, 0);
    for step in 0..=steps {
        if step > 0 {
            let start = Instant::now();
            for phase in &phases {
                run_phase(&mut levels, &mut scratch, phase, u64::from(step)).expect("no overflow");
            }
            walk += start.elapsed().as_nanos();
        }
        if every > 0 && step % every == 0 {
            record(&mut bytes, &format!("2000-01-01_{:02}:{:02}:00\0", step / 60, step % 60), &levels);
            count += 1;
            let start = Instant::now();
            let file = file.get_or_insert_with(|| {
                let mut file = File::create(OUTPUT).expect("a file");
                file.write_all(&header(nx, ny)).expect("a header");
                file
            });
            append(file, &bytes, count);
            copy += start.elapsed().as_nanos();
        }
    }
    println!("{walk} {copy}");
}
