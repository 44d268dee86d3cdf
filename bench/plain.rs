// The built-in case written plainly in Rust: the same steps, the same file, the same printed line. For bench/run.
use std::fs::OpenOptions;
use std::io::{Seek, SeekFrom, Write};

const NAME: &str = "wrfout_d01_2000-01-01_00:00:00";

fn word(out: &mut Vec<u8>, n: u32) {
    out.extend_from_slice(&n.to_be_bytes());
}

fn text(out: &mut Vec<u8>, bytes: &[u8]) {
    word(out, bytes.len() as u32);
    out.extend_from_slice(bytes);
    while out.len() % 4 != 0 {
        out.push(0);
    }
}

fn text_att(out: &mut Vec<u8>, name: &[u8], value: &[u8]) {
    text(out, name);
    word(out, 2);
    text(out, value);
}

fn int_att(out: &mut Vec<u8>, name: &[u8], n: u32) {
    text(out, name);
    word(out, 4);
    word(out, 1);
    word(out, n);
}

fn header(nx: u32, ny: u32) -> Vec<u8> {
    let mut out = b"CDF\x01".to_vec();
    for n in [0, 10, 4] {
        word(&mut out, n);
    }
    for (name, len) in [(&b"Time"[..], 0), (b"DateStrLen", 19), (b"west_east", nx), (b"south_north", ny)] {
        text(&mut out, name);
        word(&mut out, len);
    }
    word(&mut out, 12);
    word(&mut out, 2);
    text_att(&mut out, b"START_DATE", b"2000-01-01_00:00:00");
    int_att(&mut out, b"GRID_ID", 1);
    word(&mut out, 11);
    word(&mut out, 2);
    text(&mut out, b"Times");
    for n in [2, 0, 1, 0, 0, 2, 20, 380] {
        word(&mut out, n);
    }
    text(&mut out, b"T");
    for n in [3, 0, 3, 2, 12, 5] {
        word(&mut out, n);
    }
    int_att(&mut out, b"FieldType", 106);
    text_att(&mut out, b"MemoryOrder", b"XY ");
    for name in [&b"description"[..], b"units", b"stagger"] {
        text_att(&mut out, name, b"");
    }
    for n in [4, 4 * nx * ny, 400] {
        word(&mut out, n);
    }
    out
}

fn step(old: &[i32], new: &mut [i32], nx: usize, ny: usize) {
    new.copy_from_slice(old);
    for j in 1..ny.saturating_sub(1) {
        for i in 1..nx.saturating_sub(1) {
            let k = j * nx + i;
            new[k] = (4 * old[k] + old[k - 1] + old[k + 1] + old[k - nx] + old[k + nx]) / 8;
        }
    }
}

fn main() {
    let n: Vec<usize> = std::env::args().skip(1).map(|w| w.parse().unwrap()).collect();
    let (nx, ny, steps) = (n[0], n[1], n[2]);
    let mut file = OpenOptions::new().write(true).create(true).truncate(true).open(NAME).unwrap();
    file.write_all(&header(nx as u32, ny as u32)).unwrap();
    let mut old: Vec<i32> = Vec::with_capacity(nx * ny);
    for j in 0..ny {
        for i in 0..nx {
            old.push(((37 * i + 53 * j) % 100) as i32);
        }
    }
    let mut new = old.clone();
    let mut sum = 0u64;
    let mut record = Vec::with_capacity(4 * nx * ny);
    for s in 0..=steps {
        if s > 0 {
            step(&old, &mut new, nx, ny);
            std::mem::swap(&mut old, &mut new);
        }
        let time = format!("2000-01-01_{:02}:{:02}:00\0", s / 60, s % 60);
        record.resize(4 * old.len(), 0);
        for (bytes, value) in record.chunks_exact_mut(4).zip(&old) {
            bytes.copy_from_slice(&value.to_be_bytes());
        }
        for bytes in [time.as_bytes(), &record] {
            sum += bytes.iter().map(|b| u64::from(*b)).sum::<u64>();
        }
        file.seek(SeekFrom::End(0)).unwrap();
        file.write_all(time.as_bytes()).unwrap();
        file.write_all(&record).unwrap();
        file.seek(SeekFrom::Start(4)).unwrap();
        file.write_all(&(s as u32 + 1).to_be_bytes()).unwrap();
    }
    let records = steps + 1;
    println!("files 1 records {} bytes {} sum {}", records, records * (20 + 4 * nx * ny), sum);
}
