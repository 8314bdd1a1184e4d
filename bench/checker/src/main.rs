//! `plain_checker TIMES FILE..`: shapes and admits sheets as `checker_speed` does, in plain Rust.
mod sheet;

use sheet::{Row, check};
use std::hint::black_box;
use std::time::Instant;
use std::{env, error, fs};

fn rows(text: &str) -> Option<Vec<Row>> {
    text.lines()
        .map(|line| {
            let mut fields = line.split(',');
            let letter = fields.next()?.chars().next()?;
            let mut n = [0i64; 5];
            for x in &mut n {
                *x = fields.next()?.parse().ok()?;
            }
            Some(Row { letter, n })
        })
        .collect()
}

fn main() -> Result<(), Box<dyn error::Error>> {
    let words: Vec<String> = env::args().skip(1).collect();
    let times: u32 = words.first().ok_or("usage: plain_checker TIMES FILE..")?.parse()?;
    // every label may flow to every label
    let flows = [u32::MAX; 32];
    for name in &words[1..] {
        let rows = rows(&fs::read_to_string(name)?).ok_or("the sheet cannot be read")?;
        let (mut answer, mut shortest) = ((0, 0), u128::MAX);
        for _ in 0..times {
            let start = Instant::now();
            answer = black_box(check(black_box(&rows), 32, &flows)).err().unwrap_or((0, 0));
            shortest = shortest.min(start.elapsed().as_nanos());
        }
        println!("{name}: {} rows, question {}, row {}", rows.len(), answer.0, answer.1);
        eprintln!("{name}: {shortest} ns");
    }
    Ok(())
}
