//! `plain read TIMES FILE..` reads sheets over and over and writes what `reader_bench` writes.
//! `plain make FILE` makes a sheet of 60,000 bytes.
//! `plain damage FILE DIR COUNT` makes so many damaged copies of the front of a sheet.
mod sheet;
mod texts;

use sheet::{Refusal, Row, read_sheet};
use std::hint::black_box;
use std::time::Instant;
use std::{env, error, fs};

const PLACES: usize = 4000;
const BLANK: Row = Row { letter: '?', a: 0, b: 0, c: 0, d: 0, e: 0 };

fn table_sum(table: &[Row]) -> i64 {
    table
        .iter()
        .flat_map(|r| [i64::from(u32::from(r.letter)), r.a, r.b, r.c, r.d, r.e])
        .fold(0, |sum: i64, x| sum.wrapping_mul(31).wrapping_add(x))
}

fn timed_reading(text: &[u8], table: &mut [Row]) -> (Result<usize, Refusal>, u128) {
    let start = Instant::now();
    let answer = black_box(read_sheet(black_box(text), table));
    (answer, start.elapsed().as_nanos())
}

fn bench_file(times: u32, name: &str) -> Result<(), Box<dyn error::Error>> {
    let text = fs::read(name)?;
    let mut table = vec![BLANK; PLACES];
    let (mut answer, mut shortest) = timed_reading(&text, &mut table);
    for _ in 1..times {
        let (again, spent) = timed_reading(&text, &mut table);
        answer = again;
        shortest = shortest.min(spent);
    }
    let sum = table_sum(&table);
    match answer {
        Ok(rows) => println!("{name}: {rows} rows, table {sum}"),
        Err(r) => println!("{name}: refused {}, row {}, table {sum}", r.question as u8, r.row),
    }
    eprintln!("{name}: {shortest} ns");
    Ok(())
}

fn main() -> Result<(), Box<dyn error::Error>> {
    let words: Vec<String> = env::args().skip(1).collect();
    let words: Vec<&str> = words.iter().map(String::as_str).collect();
    match words.as_slice() {
        ["read", times, files @ ..] => {
            let times = times.parse()?;
            for name in files {
                bench_file(times, name)?;
            }
        }
        ["make", file] => fs::write(file, texts::sheet())?,
        ["damage", file, dir, count] => {
            let text = fs::read(file)?;
            for i in 0..count.parse()? {
                fs::write(format!("{dir}/{i}.csv"), texts::damaged(&text, i))?;
            }
        }
        _ => return Err("usage: plain read TIMES FILE.. | make FILE | damage FILE DIR COUNT".into()),
    }
    Ok(())
}
