//! Inputs of the line program and what it has to write: NAME.in and NAME.out in the directory that is named.
use std::path::Path;
use steamacorn::model::seats::output;

/// Numbers that are the same in every run: Knuth's MMIX generator.
struct Random(u64);

impl Random {
    fn below(&mut self, bound: usize) -> usize {
        self.0 = self.0.wrapping_mul(6364136223846793005).wrapping_add(1442695040888963407);
        ((u128::from(self.0) * bound as u128) >> 64) as usize
    }

    fn one_of<T: Copy>(&mut self, choices: &[T]) -> T {
        choices[self.below(choices.len())]
    }

    /// A line, mostly one that comes apart, of ids that meet each other again.
    fn line(&mut self) -> Vec<u8> {
        let number = |random: &mut Random, most: usize| random.below(most).to_string();
        let line = match self.below(12) {
            0 => {
                let count = self.below(9);
                let ids: String = (0..count).map(|i| format!(" {}", 1 + 9 * i + self.below(9))).collect();
                format!("open {}{}", number(self, 12), ids)
            }
            1..=3 => format!("seat {}", number(self, 90)),
            4..=6 => format!("out {}", number(self, 90)),
            _ => format!("find {}", self.0 >> self.below(64)),
        };
        let mut line = line.into_bytes();
        if self.below(8) == 0 && !line.is_empty() {
            let at = self.below(line.len());
            line[at] = self.one_of(b"\0\t\r  019:/nq\xff");
        }
        line
    }

    fn input(&mut self, lines: usize) -> Vec<u8> {
        let mut input = b"open 9 1 10 19 28 37\n".to_vec();
        for _ in 0..lines {
            input.extend(self.line());
            input.push(b'\n');
        }
        input
    }
}

fn padded(text: &str, filler: u8, length: usize) -> Vec<u8> {
    let mut input = text.as_bytes().to_vec();
    input.resize(length, filler);
    input
}

/// Out are seat 0, then the last, and so on down to seat 2, each in position 0 in its turn, and some come back. Keys are
/// found after each change: the more seats are out, the further they walk.
fn walks() -> Vec<u8> {
    let seats = 16;
    let ids: String = (1..=seats).map(|id| format!(" {}", id)).collect();
    let outs = [1].into_iter().chain((3..=seats).rev()).map(|id| format!("out {}\n", id));
    let changes = outs.chain((1..=6).map(|id| format!("seat {}\n", 100 + id)));
    let finds = |place: usize| (0..20).map(move |key| format!("find {}\n", 20 * place + key)).collect::<String>();
    let lines: String = changes.enumerate().map(|(place, change)| change + &finds(place)).collect();
    format!("open {}{}\n{}", seats, ids, lines).into_bytes()
}

/// Each of these lines after an accepted open, with an answer behind it that shows the table.
const LINES: [&str; 54] = [
    "",
    " ",
    "open",
    "open ",
    "open 7",
    "open 7 ",
    "open 7 1 ",
    " open 7 1",
    "open  7 1",
    "open 7  1",
    "open 7 1 1",
    "open 7 0",
    "open 0 1",
    "open 1 5 6",
    "open 2048 1",
    "open 2049 1",
    "open 4294967295 1",
    "open 4294967296 1",
    "open 07 1",
    "open 7 01",
    "open 7 00",
    "open 7 x",
    "open 7 4294967295",
    "open 7 4294967296",
    "Open 7 1",
    "opens 7 1",
    "seat",
    "seat ",
    "seat 6",
    "seat 5",
    "seat 0",
    "seat 00",
    "seat 06",
    "seat 6 7",
    "seat 4294967295",
    "seat 4294967296",
    "seat -1",
    "seat +6",
    "seat\t6",
    "seat 6\r",
    "seat 6\0",
    "out",
    "out 5",
    "out 05",
    "out 5 5",
    "out 4294967295",
    "out 4294967296",
    "find",
    "find 0",
    "find 00",
    "find 1 2",
    "find 18446744073709551615",
    "find 18446744073709551616",
    "find 99999999999999999999999999",
];

fn cases() -> Vec<(String, Vec<u8>)> {
    let whole = "open 7 11 12 13 14 15\nout 12\nseat 22\nout 15\nseat 22\nout 99\nfind x\n";
    let mut cases = vec![
        ("document", whole.as_bytes().to_vec()),
        ("document-without-the-last-lf", whole.trim_end().as_bytes().to_vec()),
        ("empty", Vec::new()),
        ("no-table", b"seat 1\nout 1\nfind 1\nopen 7\nfind 1".to_vec()),
        ("empty-lines-4096", vec![b'\n'; 4096]),
        ("empty-lines-4097", vec![b'\n'; 4097]),
        ("finds-4096", padded(&("open 1 5\n".to_string() + &"find 0\n".repeat(583)), b'\n', 4096)),
        ("finds-4097", padded(&("open 1 5\n".to_string() + &"find 0\n".repeat(583)), b'\n', 4097)),
        ("long-line-4096", padded("open 1 5\n", b'x', 4096)),
        ("long-line-4097", padded("open 1 5\n", b'x', 4097)),
        ("many-ids-4096", padded("open 7", b' ', 6).into_iter().chain(" 1".bytes().cycle().take(4090)).collect()),
        ("far-too-long", vec![b'\n'; 100_000]),
        ("walks", walks()),
    ]
    .into_iter()
    .map(|(name, input)| (name.to_string(), input))
    .collect::<Vec<_>>();
    for (i, line) in LINES.iter().enumerate() {
        cases.push((format!("line-{:02}", i), format!("open 3 5 8\n{}\nfind 7\nout 8\nfind 7", line).into_bytes()));
    }
    let mut random = Random(20200413);
    for i in 0..60 {
        let lines = 1 + random.below(240);
        cases.push((format!("random-{:02}", i), random.input(lines)));
    }
    cases
}

fn main() -> std::io::Result<()> {
    let directory = std::env::args().nth(1).expect("the directory to write to");
    for (name, input) in cases() {
        std::fs::write(Path::new(&directory).join(name.clone() + ".in"), &input)?;
        std::fs::write(Path::new(&directory).join(name + ".out"), output(&input))?;
    }
    Ok(())
}
