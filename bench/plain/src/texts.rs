//! Texts to read, the same in every run.

/// Pseudorandom numbers, by Knuth's multiplier for 64 bits.
struct Random(u64);

impl Random {
    fn below(&mut self, n: u64) -> u64 {
        self.0 = self.0.wrapping_mul(6364136223846793005).wrapping_add(1442695040888963407);
        (self.0 >> 33) % n
    }
}

/// A row of exactly so many bytes, 13 to 58: zeros before each number fill it up.
fn filler(size: usize) -> String {
    let digits = size - 8;
    let mut row = String::from("N");
    for i in 0..5 {
        let width = digits / 5 + usize::from(i < digits % 5);
        row += &format!(",{:0width$}", i + 1);
    }
    row + "\r\n"
}

/// A number of one to nine digits, mostly short, sometimes negative, one in sixteen quoted.
fn field(random: &mut Random) -> String {
    let digits = 1 + random.below(9).min(random.below(9)).min(random.below(9));
    let magnitude = random.below(10u64.pow(digits as u32));
    let sign = if random.below(8) == 0 { "-" } else { "" };
    // a quoted one is kept short, so that no row is longer than 58 bytes
    match random.below(16) {
        0 => format!("\"{sign}{}\"", magnitude % 1000),
        _ => format!("{sign}{magnitude}"),
    }
}

/// A sheet of 60,000 bytes that is read to its end.
pub fn sheet() -> String {
    let mut random = Random(2026);
    let mut text = String::new();
    while 60_000 - text.len() > 116 {
        text.push(char::from(b"TSNE"[random.below(4) as usize]));
        for _ in 0..5 {
            text.push(',');
            text += &field(&mut random);
        }
        text += "\r\n";
    }
    let left = 60_000 - text.len();
    text += &filler(left / 2);
    text += &filler(left - left / 2);
    text
}

/// The front of a text, in every second case up to the end of a row, with up to three bytes
/// changed, put in or taken out.
pub fn damaged(text: &[u8], seed: u64) -> Vec<u8> {
    const BYTES: &[u8] = b"\"\",\r\n\r\nTtN-0159+ \0\xff";
    let mut random = Random(seed);
    random.below(1);
    let length = random.below(200) as usize;
    let mut out = text[..length].to_vec();
    if seed % 2 == 0 {
        let end = out.iter().rposition(|&b| b == b'\n').map_or(0, |n| n + 1);
        out.truncate(end);
    }
    for _ in 0..seed / 2 % 4 {
        let byte = BYTES[random.below(BYTES.len() as u64) as usize];
        let at = random.below(out.len() as u64 + 1) as usize;
        match random.below(3) {
            0 => out.insert(at, byte),
            1 if at < out.len() => out[at] = byte,
            _ if at < out.len() => drop(out.remove(at)),
            _ => out.push(byte),
        }
    }
    out
}
