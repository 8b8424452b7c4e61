//! Replays files of calls (../calls/README.md) through the safe wrapper, and compares every answer, every lent cell and byte, and
//! the pool's checksum.
use drecerunya::Answer;
use std::collections::BTreeSet;
use std::fmt::Write;
use std::{env, fs, process};

const FILL: u8 = 0xAA;

/// Every call of the header, by its word in the files.
const CALLS: [&str; 17] = [
    "setup",
    "check",
    "insert",
    "delete",
    "smallestx",
    "largestx",
    "smallesty",
    "listing",
    "open",
    "close",
    "first",
    "last",
    "covers",
    "meets",
    "contains",
    "earliest",
    "save",
];

/// What a call left in the slice that it was lent.
enum Lent {
    None,
    Cells(Vec<u32>),
    Bytes(Vec<u8>),
}

impl Lent {
    fn cells(length: u32) -> Vec<u32> {
        vec![u32::from_ne_bytes([FILL; 4]); length as usize]
    }

    /// The line that a file has for it.
    fn line(&self) -> Option<String> {
        match self {
            Lent::None => None,
            Lent::Cells(cells) => Some(cells_line(cells)),
            Lent::Bytes(bytes) if bytes.is_empty() => Some("> -".to_string()),
            Lent::Bytes(bytes) => Some(bytes.iter().fold("> ".to_string(), |mut line, byte| {
                let _ = write!(line, "{byte:02x}");
                line
            })),
        }
    }
}

fn cells_line(cells: &[u32]) -> String {
    if cells.is_empty() {
        return "> -".to_string();
    }
    cells.iter().fold(">".to_string(), |mut line, cell| {
        let _ = write!(line, " {cell}");
        line
    })
}

/// FNV-1a of the pool's cells, each as four bytes, the lowest first.
fn checksum(pool: &[u32]) -> u64 {
    pool.iter()
        .flat_map(|cell| cell.to_le_bytes())
        .fold(0xcbf2_9ce4_8422_2325, |sum, byte| (sum ^ u64::from(byte)).wrapping_mul(0x100_0000_01b3))
}

/// Makes the call that a line names; none where it names no call.
fn call(pool: &mut [u32], word: &str, n: &[u32]) -> Option<(Answer, Lent)> {
    let alone = match (word, n) {
        ("setup", []) => drecerunya::set_up(pool),
        ("check", []) => drecerunya::check(pool),
        ("insert", &[x, y]) => drecerunya::insert(pool, x, y),
        ("delete", &[x, y]) => drecerunya::delete(pool, x, y),
        ("smallestx", &[x0, x1, y1]) => drecerunya::smallest_x(pool, x0, x1, y1),
        ("largestx", &[x0, x1, y1]) => drecerunya::largest_x(pool, x0, x1, y1),
        ("smallesty", &[x0, x1]) => drecerunya::smallest_y(pool, x0, x1),
        ("open", &[start, end, number]) => drecerunya::open(pool, start, end, number),
        ("close", &[start, end, number]) => drecerunya::close(pool, start, end, number),
        ("first", &[u]) => drecerunya::first_to_end(pool, u),
        ("last", &[u, e]) => drecerunya::last_to_end(pool, u, e),
        ("earliest", &[u, v]) => drecerunya::earliest_start(pool, u, v),
        _ => return call_with_slice(pool, word, n),
    };
    Some((alone, Lent::None))
}

/// The calls that are lent a second slice.
fn call_with_slice(pool: &[u32], word: &str, n: &[u32]) -> Option<(Answer, Lent)> {
    if let ("save", &[length]) = (word, n) {
        let mut bytes = vec![FILL; length as usize];
        return Some((drecerunya::save(pool, &mut bytes), Lent::Bytes(bytes)));
    }
    let mut out = Lent::cells(*n.first()?);
    let answer = match (word, n) {
        ("listing", &[_, x0, x1, y1]) => drecerunya::listing(pool, x0, x1, y1, &mut out),
        ("covers", &[_, u]) => drecerunya::list_covers(pool, u, &mut out),
        ("meets", &[_, u, v]) => drecerunya::list_meets(pool, u, v, &mut out),
        ("contains", &[_, u, v]) => drecerunya::list_contains(pool, u, v, &mut out),
        _ => return None,
    };
    Some((answer, Lent::Cells(out)))
}

/// Where a file stands, and what it has lent.
struct Replay<'a> {
    lines: std::str::Lines<'a>,
    at: usize,
    pool: Vec<u32>,
    muted: bool,
    made: BTreeSet<&'a str>,
    calls: u64,
}

impl<'a> Replay<'a> {
    fn new(text: &'a str) -> Replay<'a> {
        Replay { lines: text.lines(), at: 0, pool: Vec::new(), muted: false, made: BTreeSet::new(), calls: 0 }
    }

    /// The next line that is neither empty nor a comment.
    fn next_line(&mut self) -> Option<&'a str> {
        loop {
            let line = self.lines.next()?;
            self.at += 1;
            if !line.is_empty() && !line.starts_with('#') {
                return Some(line);
            }
        }
    }

    /// The next line must be what was got.
    fn compare(&mut self, what: &str, got: &str) -> Result<(), String> {
        match self.next_line() {
            Some(line) if line == got => Ok(()),
            line => Err(format!("{what}\nexpected {}\ngot      {got}", line.unwrap_or("nothing"))),
        }
    }

    /// Makes a call, and compares its answer and what it leaves.
    fn make(&mut self, word: &'a str, n: &[u32]) -> Result<(), String> {
        let (answer, lent) = call(&mut self.pool, word, n).ok_or("not a line of a file of calls")?;
        self.calls += 1;
        self.made.insert(word);
        let sum = if self.muted { "-".to_string() } else { format!("{:016x}", checksum(&self.pool)) };
        let [code, x, y, count, visits] = answer.numbers();
        self.compare(word, &format!("= {code} {x} {y} {count} {visits} {sum}"))?;
        match lent.line() {
            Some(line) => self.compare(word, &line),
            None => Ok(()),
        }
    }

    /// Does what a line says.
    fn take(&mut self, line: &'a str) -> Result<(), String> {
        let mut words = line.split(' ');
        let word = words.next().unwrap_or_default();
        let n = words.map(str::parse).collect::<Result<Vec<u32>, _>>().map_err(|e| e.to_string())?;
        match (word, n.as_slice()) {
            ("mute", []) => self.muted = true,
            ("unmute", []) => self.muted = false,
            ("pool", &[length, value]) => self.pool = vec![value; length as usize],
            ("poke", &[at, value]) => *self.pool.get_mut(at as usize).ok_or("a poke outside the pool")? = value,
            ("cells", []) => self.compare("cells", &cells_line(&self.pool))?,
            (word, n) => self.make(word, n)?,
        }
        Ok(())
    }

    fn run(&mut self) -> Result<(), String> {
        for head in ["calls 1", "upto 0"] {
            self.compare("the head of the file", head)?;
        }
        while let Some(line) = self.next_line() {
            self.take(line)?;
        }
        Ok(())
    }
}

fn main() {
    let (mut calls, mut made) = (0, BTreeSet::new());
    for name in env::args().skip(1) {
        let text = fs::read_to_string(&name).unwrap_or_else(|e| stop(&format!("{name}: {e}")));
        let mut replay = Replay::new(&text);
        if let Err(what) = replay.run() {
            stop(&format!("{name}:{}: {what}", replay.at));
        }
        calls += replay.calls;
        made.extend(replay.made.into_iter().map(str::to_string));
    }
    if let Some(word) = CALLS.iter().find(|word| !made.contains(**word)) {
        stop(&format!("no file has the call {word}"));
    }
    println!("{calls}");
}

fn stop(what: &str) -> ! {
    eprintln!("{what}");
    process::exit(1)
}
