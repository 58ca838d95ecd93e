//! Document 01, "The line program `seats`", with the fourth number of document 02, "Show how far a lookup walked".
use super::calls;
use super::find::Found;
use super::numbers::{LINE, ROOM};
use super::parts::{run_length, MOST_SEATS};

const MOST_INPUT: usize = 4096;

enum Line {
    Open(u32, Vec<u32>),
    Seat(u32),
    Out(u32),
    Find(u64),
}

/// Decimal, without sign or leading zeros.
fn digits(word: &[u8]) -> Option<&str> {
    let plain = word.iter().all(u8::is_ascii_digit) && (word == b"0" || !word.starts_with(b"0"));
    std::str::from_utf8(word).ok().filter(|_| plain)
}

fn number(word: &[u8]) -> Option<u32> {
    digits(word)?.parse().ok()
}

fn key(word: &[u8]) -> Option<u64> {
    digits(word)?.parse().ok()
}

fn parse(line: &[u8]) -> Option<Line> {
    let words: Vec<&[u8]> = line.split(|byte| *byte == b' ').collect();
    match words.as_slice() {
        [b"open", a, ids @ ..] => {
            let ids = ids.iter().map(|id| number(id)).collect::<Option<_>>()?;
            Some(Line::Open(number(a)?, ids))
        }
        [b"seat", id] => Some(Line::Seat(number(id)?)),
        [b"out", id] => Some(Line::Out(number(id)?)),
        [b"find", k] => Some(Line::Find(key(k)?)),
        _ => None,
    }
}

/// Does what the line says to the table; the answer is what follows `ok`.
fn run(table: &mut Vec<u32>, line: &[u8]) -> Result<Vec<u32>, u32> {
    match parse(line).ok_or(LINE)? {
        Line::Open(a, ids) => {
            let mut opened = vec![0; run_length(a.min(MOST_SEATS))];
            let n = calls::open(&mut opened, a, &ids)?;
            *table = opened;
            Ok(vec![n])
        }
        Line::Seat(id) => Ok(vec![calls::seat(table, id)?]),
        Line::Out(id) => Ok(vec![calls::out(table, id)?]),
        Line::Find(key) => {
            let Found { seat, server, draws, walks } = calls::find(table, key)?;
            Ok(vec![seat, server, draws, walks])
        }
    }
}

fn answer(result: Result<Vec<u32>, u32>) -> String {
    match result {
        Ok(values) => values.iter().fold("ok".to_string(), |text, value| format!("{} {}", text, value)) + "\n",
        Err(number) => format!("no {}\n", number),
    }
}

/// What the program writes when it reads this input.
pub fn output(input: &[u8]) -> String {
    if input.len() > MOST_INPUT {
        return answer(Err(ROOM));
    }
    let mut lines: Vec<&[u8]> = input.split(|byte| *byte == b'\n').collect();
    if lines.last().map_or(false, |line| line.is_empty()) {
        lines.pop();
    }
    let mut table = Vec::new();
    lines.into_iter().map(|line| answer(run(&mut table, line))).collect()
}

#[cfg(test)]
mod tests {
    use super::*;

    #[test]
    fn the_transcript() {
        let input = "open 7 11 12 13 14 15\nout 12\nseat 22\nout 15\nseat 22\nout 99\nfind x\n";
        let whole = "ok 5\nok 1\nok 1\nok 4\nno 4\nno 7\nno 11\n";
        assert_eq!(output(input.as_bytes()), whole);
        assert_eq!(output(input.trim_end().as_bytes()), whole);
    }

    #[test]
    fn lines() {
        assert_eq!(output(b""), "");
        assert_eq!(output(b"\n"), "no 11\n");
        assert_eq!(output(b"\n\nopen 1 5"), "no 11\nno 11\nok 1\n");
        assert_eq!(output(b"open 1 5\r\nopen 1 5\n"), "no 11\nok 1\n");
        assert_eq!(output(b"seat 1\nout 0\nfind 0\n"), "no 1\nno 1\nno 1\n");
    }

    #[test]
    fn lines_that_do_not_come_apart() {
        let unknown = [
            "open",
            "open ",
            "open 7 ",
            "open  7 1",
            " open 7 1",
            "open 7 1 ",
            "open 7  1",
            "Open 7 1",
            "open +7 1",
            "open 07 1",
            "open 7 x",
            "open 7 4294967296",
            "open 4294967296 1",
            "opens 7 1",
            "seat",
            "seat 1 2",
            "seat -1",
            "seat 00",
            "out",
            "out 1 2",
            "out 4294967296",
            "find",
            "find 1 2",
            "find 18446744073709551616",
            "close",
            "\0",
            "find 99999999999999999999999999",
            "seat\t1",
        ];
        for line in unknown {
            assert_eq!(output(line.as_bytes()), "no 11\n", "{}", line);
        }
    }

    #[test]
    fn numbers_at_their_edges() {
        assert_eq!(
            output(b"open 7\nopen 0 1\nopen 2049 1\nopen 4294967295 1\nopen 7 0\n"),
            "no 2\nno 1\nno 1\nno 1\nno 3\n"
        );
        assert_eq!(output(b"open 2048 4294967295\nout 4294967295\nseat 0\n"), "ok 1\nno 8\nno 3\n");
        assert_eq!(
            output(b"open 1 4294967295\nfind 18446744073709551615\nfind 0\n"),
            "ok 1\nok 0 4294967295 1 0\nok 0 4294967295 1 0\n"
        );
        assert_eq!(output(b"open 1 5 6\nopen 2 5 5\n"), "no 2\nno 4\n");
    }

    /// K leads from seat 0 over 3 and 2 to 1. One key draws seat 2 first, and then position 0 of 1; the other seat 1.
    #[test]
    fn finds_tell_their_walks() {
        let changes = "open 4 11 12 13 14\nout 11\nout 14\nout 13\n";
        let told = output((changes.to_string() + "find 2\nfind 1\n").as_bytes());
        assert_eq!(told, "ok 4\nok 0\nok 3\nok 2\nok 1 12 2 3\nok 1 12 1 0\n");
    }

    #[test]
    fn a_refused_open_keeps_the_table() {
        assert_eq!(output(b"open 2 5 6\nopen 3\nopen 0 1\nopen 3 7 7\nout 6\n"), "ok 2\nno 2\nno 1\nno 4\nok 1\n");
    }

    #[test]
    fn input_of_4096_bytes_and_of_one_more() {
        let most = [b"open 1 5\n".to_vec(), vec![b'x'; 4087]].concat();
        assert_eq!(output(&most), "ok 1\nno 11\n");
        assert_eq!(output(&[most, vec![b'\n']].concat()), "no 9\n");
    }
}
