//! The benchmark: prints the tables of docs/BENCHMARKS.md, and writes the numbers of its plot to the file named.
mod alternatives;
mod calls;
mod measure;
mod safe;

use alternatives::{Anchor, Balancer, Hrw, Jump, Maglev, Ring};
use calls::{Bare, Calls, InClang, InGcc, InRust, Library};
use measure::{side_by_side, time};
use safe::output;
use std::fmt::Write;
use std::rc::Rc;
use std::time::Duration;

const SEATS: [u32; 3] = [64, 512, 2048];
const FIND_OUT: [u32; 3] = [10, 50, 90];

/// So few keys, again and again, that a processor learns the way of each by heart.
const HOT: u32 = 1 << 10;
/// So many that it cannot: the keys of a busy box.
const MANY: u32 = 1 << 20;

/// What a candidate works on: all begin with the same.
#[derive(Clone, PartialEq)]
struct State {
    table: Vec<u32>,
    loaded: Vec<u32>,
    record: Vec<u8>,
    seated: Vec<u32>,
    keys: Rc<[u64]>,
    packets: Rc<[[u8; PACKET]]>,
    turn: usize,
}

fn some_keys(count: u32, which: u64) -> Rc<[u64]> {
    (0..u64::from(count)).map(|key| output(key, which)).collect()
}

impl State {
    /// A table of a seats, with so many of 100 taken out in no particular order.
    fn new(a: u32, out_of_100: u32, keys: u32) -> State {
        let mut order: Vec<u32> = (1..=a).collect();
        order.sort_by_key(|id| output(u64::from(*id), 1));
        let mut table = vec![0; steamacorn::words(a as usize)];
        steamacorn::open(&mut table, a, &(1..=a).collect::<Vec<_>>()).expect("accepted");
        let (leaving, seated) = order.split_at((a * out_of_100 / 100) as usize);
        leaving.iter().for_each(|id| safe::out_unaudited(&mut table, *id));
        Library::audit(&table);
        let mut record = vec![0; steamacorn::record_bytes(a as usize, seated.len())];
        InRust::save(&table, &mut record);
        State {
            loaded: vec![0; table.len()],
            table,
            record,
            seated: seated.to_vec(),
            keys: some_keys(keys, 2),
            packets: Rc::new([]),
            turn: 0,
        }
    }

    /// Another id that is seated.
    fn next_id(&mut self) -> u32 {
        self.turn = (self.turn + 1) % self.seated.len();
        self.seated[self.turn]
    }
}

/// A call in the table: what the four do with their states, and how many calls that is.
struct Row {
    name: &'static str,
    calls: u32,
    units: [fn(&mut State); 4],
}

/// `row!("name", calls, C, state => ..)`: C is each of the four in turn.
macro_rules! row {
    ($name:literal, $calls:expr, $c:ident, $state:ident => $body:expr) => {{
        fn unit<$c: Calls>($state: &mut State) {
            $body
        }
        Row { name: $name, calls: $calls, units: [unit::<Library>, unit::<InGcc>, unit::<InClang>, unit::<InRust>] }
    }};
}

/// Every key of the state is looked up.
fn look_up_all(state: &mut State, find: impl Fn(&[u32], u64) -> (u32, u32, u32)) {
    let total = state.keys.iter().fold(0, |sum: u32, key| {
        let (seat, server, draws) = find(&state.table, *key);
        sum.wrapping_add(seat).wrapping_add(server).wrapping_add(draws)
    });
    state.turn = total as usize;
}

fn find_row(keys: u32) -> Row {
    row!("find", keys, C, state => look_up_all(state, C::find))
}

/// The same with the walks.
fn walk_all(state: &mut State, find_walks: impl Fn(&[u32], u64) -> (u32, u32, u32, u32)) {
    look_up_all(state, |table, key| {
        let (seat, server, draws, walks) = find_walks(table, key);
        (seat, server, draws.wrapping_add(walks))
    });
}

/// The table of find_walks, and what it takes beside find.
fn walks(report: &mut Report) {
    println!("\n## find_walks, 2^20 keys in turn\n");
    println!("| a | out of 100 | {}", COLUMNS);
    let row = row!("find_walks", MANY, C, state => walk_all(state, C::find_walks));
    for out_of_100 in FIND_OUT {
        for a in SEATS {
            let times = measured(&row, &State::new(a, out_of_100, MANY), report.row);
            report.line(&format!("{} | {}", a, out_of_100), times);
        }
    }
    println!("\nThe library's find_walks to its find:");
    for out_of_100 in FIND_OUT {
        let ratios = SEATS.map(|a| {
            let [mut told, mut untold] = [(); 2].map(|_| State::new(a, out_of_100, MANY));
            let units: &mut [&mut dyn FnMut()] = &mut [&mut || walk_all(&mut told, Library::find_walks), &mut || {
                look_up_all(&mut untold, Library::find)
            }];
            let times = side_by_side(units, MANY, report.row);
            format!("{:.2}", times[0] / times[1])
        });
        println!("- {} of 100 out, a = 64, 512, 2048: {}", out_of_100, ratios.join(", "));
    }
}

/// A packet of 60 bytes: IPv4 with ports, a fragment of such, or IPv6 with ports. Its addresses are the key's.
#[derive(Clone, Copy)]
enum Kind {
    Four,
    Fragment,
    Six,
}

const PACKET: usize = 60;

fn packet(kind: Kind, key: u64) -> [u8; PACKET] {
    let mut packet = [0; PACKET];
    packet.chunks_exact_mut(4).zip(1..).for_each(|(four, n)| four.copy_from_slice(&output(n, key).to_be_bytes()[..4]));
    match kind {
        Kind::Six => packet[..8].copy_from_slice(&[0x60, 0, 0, 0, 0, PACKET as u8 - 40, 17, 64]),
        _ => {
            packet[..12].copy_from_slice(&[0x45, 0, 0, PACKET as u8, 0, 1, 0, 0, 64, 6, 0, 0]);
            packet[7] = u8::from(matches!(kind, Kind::Fragment));
        }
    }
    packet
}

/// A key is made of each packet.
fn make_all(state: &mut State, key: impl Fn(&[u8], &mut [u8; 8])) {
    let total = state.packets.iter().fold(0, |sum: u64, packet| {
        let mut made = [0; 8];
        key(packet, &mut made);
        sum.wrapping_add(u64::from_be_bytes(made))
    });
    state.turn = total as usize;
}

fn keys_of_packets(report: &mut Report) {
    println!("\n## Keys from packets\n");
    println!("1,024 packets of 60 bytes again and again.\n");
    println!("| packet | ports | {}", COLUMNS);
    for (cells, kind) in
        [("IPv4 | yes", Kind::Four), ("IPv4, a fragment | no", Kind::Fragment), ("IPv6 | yes", Kind::Six)]
    {
        let row = row!("key", HOT, C, state => make_all(state, C::key));
        let mut state = State::new(SEATS[0], 0, 1);
        state.packets = some_keys(HOT, 6).iter().map(|key| packet(kind, *key)).collect();
        let times = measured(&row, &state, report.row);
        report.line(cells, times);
    }
}

fn call_rows() -> Vec<Row> {
    vec![
        row!("a change", 2, C, state => {
            let id = state.next_id();
            let left = C::out(&mut state.table, id);
            assert_eq!(C::seat(&mut state.table, id), left);
        }),
        row!("audit", 1, C, state => C::audit(&state.table)),
        row!("save", 1, C, state => assert_eq!(C::save(&state.table, &mut state.record), state.record.len())),
        row!("load", 1, C, state => assert_eq!(C::load(&mut state.loaded, &state.record), state.table[1])),
    ]
}

/// Nanoseconds of a call.
#[derive(Clone, Copy)]
struct Times {
    library: f64,
    gcc: f64,
    clang: f64,
    rust: f64,
}

impl Times {
    /// C is the better of its two compilers.
    fn c(&self) -> f64 {
        self.gcc.min(self.clang)
    }
}

fn measured(row: &Row, state: &State, budget: Duration) -> Times {
    let mut states = [(); 4].map(|_| state.clone());
    row.units.iter().zip(&mut states).for_each(|(unit, state)| unit(state));
    assert!(states.iter().all(|state| *state == states[0]), "{}: the four differ", row.name);
    let mut turns: Vec<_> = row.units.iter().zip(&mut states).map(|(unit, state)| move || unit(state)).collect();
    let mut turns: Vec<_> = turns.iter_mut().map(|turn| turn as &mut dyn FnMut()).collect();
    let times = side_by_side(&mut turns, row.calls, budget);
    Times { library: times[0], gcc: times[1], clang: times[2], rust: times[3] }
}

/// What is told beside the tables, as they grow.
struct Report {
    /// How long a row may take.
    row: Duration,
    /// The plot's file: what, a, who, number
    csv: String,
    growth: Vec<String>,
    /// The rows in which gcc's C is the better, and the others.
    better: [u32; 2],
}

const COLUMNS: &str =
    "library | C, gcc | C, clang | Rust | library to C | library to Rust |\n|---|---|---|---|---|---|---|---|";

impl Report {
    fn number(&mut self, what: &str, a: u32, who: &str, number: f64) {
        writeln!(self.csv, "{},{},{},{:.2}", what, a, who, number).expect("a string takes all");
    }

    /// A line of a table: four times and two ratios.
    fn line(&mut self, cells: &str, times: Times) {
        let ratios = format!("{:.2} | {:.2}", times.library / times.c(), times.library / times.rust);
        let [library, gcc, clang, rust] = [times.library, times.gcc, times.clang, times.rust].map(time);
        println!("| {} | {} | {} | {} | {} | {} |", cells, library, gcc, clang, rust, ratios);
        self.better[usize::from(times.clang < times.gcc)] += 1;
    }

    /// And in the plot.
    fn plotted(&mut self, cells: &str, what: &str, a: u32, times: Times) {
        self.line(cells, times);
        self.number(what, a, "library", times.library);
        self.number(what, a, "C", times.c());
        self.number(what, a, "Rust", times.rust);
    }
}

/// The table of find with so many keys, `said` so in words. In the plot's file a row is called `what` and the seats out of 100.
fn finds(report: &mut Report, keys: u32, said: &str, what: &str, budget: Duration) {
    println!("| a | out of 100 | {}", COLUMNS);
    for out_of_100 in FIND_OUT {
        let mut by_size = Vec::new();
        for a in SEATS {
            let times = measured(&find_row(keys), &State::new(a, out_of_100, keys), budget);
            report.plotted(&format!("{} | {}", a, out_of_100), &format!("{} {}", what, out_of_100), a, times);
            by_size.push(times.library);
        }
        report.growth.push(grown(&format!("find, {} keys, {} of 100 out", said, out_of_100), &by_size));
    }
    println!(
        "\nThe library to C that tests nothing, neither SIZE nor DAMAGED, and that a damaged table can hold for ever:"
    );
    for out_of_100 in FIND_OUT {
        let ratios = SEATS.map(|a| {
            let state = State::new(a, out_of_100, keys);
            let [mut library, mut gcc, mut clang] = [(); 3].map(|_| state.clone());
            let units: &mut [&mut dyn FnMut()] = &mut [
                &mut || look_up_all(&mut library, Library::find),
                &mut || look_up_all(&mut gcc, InGcc::bare_find),
                &mut || look_up_all(&mut clang, InClang::bare_find),
            ];
            let times = side_by_side(units, keys, budget / 2);
            format!("{:.2}", times[0] / times[1].min(times[2]))
        });
        println!("- {} of 100 out, a = 64, 512, 2048: {}", out_of_100, ratios.join(", "));
    }
}

fn grown(what: &str, by_size: &[f64]) -> String {
    let times: Vec<String> = by_size.windows(2).map(|pair| format!(" {:.2} |", pair[1] / pair[0])).collect();
    format!("| {} |{}", what, times.concat())
}

fn calls_on_tables(report: &mut Report) {
    println!("\n## The other calls, 10 of 100 seats out\n");
    println!("| call | a | {}", COLUMNS);
    for row in call_rows() {
        let mut by_size = Vec::new();
        for a in SEATS {
            let times = measured(&row, &State::new(a, 10, HOT), report.row);
            report.plotted(&format!("{} | {}", row.name, a), row.name, a, times);
            by_size.push(times.library);
        }
        report.growth.push(grown(row.name, &by_size));
    }
    println!("\nA change whose table is believed to be sound, its stores alone, in C:");
    for a in SEATS {
        let [mut gcc, mut clang] = [(); 2].map(|_| State::new(a, 10, HOT));
        let units: &mut [&mut dyn FnMut()] = &mut [
            &mut || {
                let id = gcc.next_id();
                InGcc::bare_out_and_seat(&mut gcc.table, id);
            },
            &mut || {
                let id = clang.next_id();
                InClang::bare_out_and_seat(&mut clang.table, id);
            },
        ];
        let times = side_by_side(units, 2, report.row / 4);
        println!("- a = {}: {}", a, time(times[0].min(times[1])));
    }
}

const SERVERS: u32 = 1000;
const ANCHOR: u32 = 1100;
const KEYS: u64 = 20_000;
const CHANGED: usize = 5;

/// Keys moved, and keys moved that need not have been, over some servers that leave and come back one by one.
fn moves(balancer: &mut dyn Balancer) -> (usize, usize) {
    let keys: Vec<u64> = (0..KEYS).map(|key| output(key, 3)).collect();
    let mut were: Vec<u32> = keys.iter().map(|key| balancer.find(*key)).collect();
    let (mut moved, mut needless) = (0, 0);
    for turn in 0..2 * CHANGED {
        let id = (output(turn as u64 / 2, 4) % u64::from(SERVERS)) as u32 + 1;
        if turn % 2 == 0 {
            balancer.out(id)
        } else {
            balancer.seat(id)
        }
        let are: Vec<u32> = keys.iter().map(|key| balancer.find(*key)).collect();
        let pairs = were.iter().zip(&are).filter(|(was, is)| was != is);
        let from_or_to = |was: u32, is: u32| if turn % 2 == 0 { was == id } else { is == id };
        needless += pairs.clone().filter(|(was, is)| !from_or_to(**was, **is)).count();
        moved += pairs.count();
        were = are;
    }
    (moved, needless)
}

/// A lookup of each of these keys, a part of them at a time, and then from the first again.
fn found(balancer: &dyn Balancer, keys: &[u64], budget: Duration) -> f64 {
    let mut parts = keys.chunks_exact(HOT as usize).cycle();
    let mut sum = 0;
    let mut find = || {
        let part = parts.next().expect("one part or more");
        sum = part.iter().map(|key| balancer.find(*key)).fold(sum, u32::wrapping_add);
    };
    let times = side_by_side(&mut [&mut find], HOT, budget);
    assert_ne!(sum, 0);
    times[0]
}

fn alternatives(report: &mut Report) {
    let ids: Vec<u32> = (1..=SERVERS).collect();
    let mut list: Vec<(&str, Box<dyn Balancer>)> = vec![
        ("AnchorHash, the library, 1,100 seats", Box::new(Anchor::new(ANCHOR, &ids))),
        ("Maglev's table, 100 entries a server", Box::new(Maglev::new(&ids))),
        ("a ring, 100 points a server", Box::new(Ring::new(&ids))),
        ("HRW", Box::new(Hrw::new(&ids))),
        ("jump hash", Box::new(Jump::new(&ids))),
    ];
    println!("\n## The paper's alternatives, 1,000 servers\n");
    println!(
        "Keys of 20,000, all {} changes together: {} servers leave and come back, one by one.\n",
        2 * CHANGED,
        CHANGED
    );
    println!("| | find, 1,024 keys | find, 2^20 keys | a change | keys moved | of them needlessly |\n|---|---|---|---|---|---|");
    for (name, balancer) in &mut list {
        let (moved, needless) = moves(balancer.as_mut());
        let [hot, many] = [HOT, MANY].map(|keys| found(balancer.as_ref(), &some_keys(keys, 5), report.row));
        let mut id = 0;
        let mut change = || {
            id = id % SERVERS + 1;
            balancer.out(id);
            balancer.seat(id);
        };
        let changed = side_by_side(&mut [&mut change], 2, report.row)[0];
        println!("| {} | {} | {} | {} | {} | {} |", name, time(hot), time(many), time(changed), moved, needless);
        let short = name.split(',').next().expect("a name");
        report.number("alternative find", SERVERS, short, many);
        report.number("alternative change", SERVERS, short, changed);
        report.number("alternative needless", SERVERS, short, needless as f64);
    }
}

fn main() {
    let usage = "usage: bench CSV-FILE MILLISECONDS-A-ROW";
    let mut words = std::env::args().skip(1);
    let path = words.next().expect(usage);
    let row = words.next().and_then(|word| word.parse().ok()).map(Duration::from_millis).expect(usage);
    let mut report = Report { row, csv: String::from("what,a,who,number\n"), growth: Vec::new(), better: [0, 0] };
    println!("## find, 2^20 keys in turn\n");
    println!("So many that a processor cannot learn the way of each: what a busy box sees.\n");
    finds(&mut report, MANY, "2^20", "find", 2 * row);
    println!("\n## find, 1,024 keys again and again\n");
    println!("So few that it learns their branches by heart.\n");
    finds(&mut report, HOT, "1,024", "hot find", row);
    walks(&mut report);
    calls_on_tables(&mut report);
    keys_of_packets(&mut report);
    println!("\nOf the rows above C was quicker by gcc in {}, and by clang in {}.", report.better[0], report.better[1]);
    println!("\n## How the library's times grow with a\n");
    println!("| call | from 64 to 512 seats, 8 times as many | from 512 to 2,048, 4 times as many |\n|---|---|---|");
    report.growth.iter().for_each(|line| println!("{}", line));
    alternatives(&mut report);
    std::fs::write(path, report.csv).expect("the file of the numbers");
}
