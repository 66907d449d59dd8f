//! The plain program of `scripts/bench_nest.sh`: it has columns as vectors in Arrow's layout, and writes their rows as lines of JSON.
//! Usage: plain_rows ROWS > TEXT          writes the rows, and the seconds that this took to standard error
use std::io::{self, Write};
use std::time::Instant;

struct Columns {
    ids: Vec<i64>,
    name_ends: Vec<usize>,
    names: String,
    oks: Vec<Option<bool>>,
    list_ends: Vec<usize>,
    tag_ends: Vec<usize>,
    tags: String,
    ats: Vec<i64>,
}

fn columns(rows: i64) -> Columns {
    let mut made = Columns {
        ids: Vec::new(),
        name_ends: vec![0],
        names: String::new(),
        oks: Vec::new(),
        list_ends: vec![0],
        tag_ends: vec![0],
        tags: String::new(),
        ats: Vec::new(),
    };
    for i in 0..rows {
        made.ids.push(i);
        made.names += &format!("name{}", i * 7919 % 100003);
        made.name_ends.push(made.names.len());
        made.oks.push(if i % 10 == 0 { None } else { Some(i % 3 == 0) });
        for j in 0..i % 4 {
            made.tags += &format!("t{}", (i + j) % 17);
            made.tag_ends.push(made.tags.len());
        }
        made.list_ends.push(made.tag_ends.len() - 1);
        made.ats.push((i * 1103515245 + 12345) % (1 << 31) - (1 << 30));
    }
    made
}

fn push_number(text: &mut Vec<u8>, number: i64) {
    let mut digits = [0u8; 20];
    let mut at = digits.len();
    let mut rest = number.unsigned_abs();
    loop {
        at -= 1;
        digits[at] = b'0' + (rest % 10) as u8;
        rest /= 10;
        if rest == 0 {
            break;
        }
    }
    if number < 0 {
        text.push(b'-');
    }
    text.extend_from_slice(&digits[at..]);
}

fn push_text(text: &mut Vec<u8>, value: &str) {
    text.push(b'"');
    for byte in value.bytes() {
        match byte {
            b'"' | b'\\' => text.extend_from_slice(&[b'\\', byte]),
            0..=31 => text.extend_from_slice(format!("\\u{byte:04x}").as_bytes()),
            _ => text.push(byte),
        }
    }
    text.push(b'"');
}

fn push_tags(text: &mut Vec<u8>, columns: &Columns, i: usize) {
    text.push(b'[');
    for j in columns.list_ends[i]..columns.list_ends[i + 1] {
        if j > columns.list_ends[i] {
            text.push(b',');
        }
        push_text(text, &columns.tags[columns.tag_ends[j]..columns.tag_ends[j + 1]]);
    }
    text.push(b']');
}

fn push_row(text: &mut Vec<u8>, columns: &Columns, i: usize) {
    text.extend_from_slice(b"{\"id\":");
    push_number(text, columns.ids[i]);
    text.extend_from_slice(b",\"name\":");
    push_text(text, &columns.names[columns.name_ends[i]..columns.name_ends[i + 1]]);
    text.extend_from_slice(match columns.oks[i] {
        None => b",\"ok\":null",
        Some(true) => b",\"ok\":true",
        Some(false) => b",\"ok\":false",
    });
    text.extend_from_slice(b",\"tags\":");
    push_tags(text, columns, i);
    text.extend_from_slice(b",\"at\":");
    push_number(text, columns.ats[i]);
    text.extend_from_slice(b"}\n");
}

fn main() -> io::Result<()> {
    let rows = std::env::args().nth(1).and_then(|word| word.parse().ok()).unwrap_or(1_000_000);
    let columns = columns(rows);
    let began = Instant::now();
    let mut text = Vec::new();
    for i in 0..columns.ids.len() {
        push_row(&mut text, &columns, i);
        if text.len() > 1 << 16 {
            io::stdout().write_all(&text)?;
            text.clear();
        }
    }
    io::stdout().write_all(&text)?;
    eprintln!("{:.3}", began.elapsed().as_secs_f64());
    Ok(())
}
