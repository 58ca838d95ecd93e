//! Models with a known fault.
use crate::library::{found, Answer, Library, Model, UNWRITTEN};
use crate::seat_zero::pick_before;
use steamacorn::model::calls;
use steamacorn::model::find::{by_arrays, first_of, pick_of, redraw, Found};
use steamacorn::model::numbers::{DAMAGED, FORM, ROOM, SIZE};
use steamacorn::model::parts::Parts;
use steamacorn::model::table::Table;
use steamacorn::words;

/// The model, but for the calls that have a fault.
pub struct Faulty {
    pub seat: fn(&mut [u32], u32) -> Answer,
    pub out: fn(&mut [u32], u32) -> Answer,
    pub find_walks: fn(&mut [u32], u64) -> Answer,
    /// What find answers, given what find_walks answers.
    pub find: fn(Answer) -> Answer,
    pub save: fn(&mut [u32], &mut [u8]) -> Answer,
    pub load: fn(&mut [u32], &mut [u8]) -> Answer,
    pub key: fn(&mut [u8], &mut [u8]) -> Answer,
}

pub const FAULTLESS: Faulty = Faulty {
    seat: |table, id| Model.seat(table, id),
    out: |table, id| Model.out(table, id),
    find_walks: |table, key| Model.find_walks(table, key),
    find: Answer::three,
    save: |table, record| Model.save(table, record),
    load: |table, record| Model.load(table, record),
    key: |packet, key| Model.key(packet, key),
};

impl Library for Faulty {
    fn open(&self, table: &mut [u32], a: u32, ids: &mut [u32]) -> Answer {
        Model.open(table, a, ids)
    }

    fn seat(&self, table: &mut [u32], id: u32) -> Answer {
        (self.seat)(table, id)
    }

    fn out(&self, table: &mut [u32], id: u32) -> Answer {
        (self.out)(table, id)
    }

    fn find(&self, table: &mut [u32], key: u64) -> Answer {
        (self.find)(self.find_walks(table, key))
    }

    fn find_walks(&self, table: &mut [u32], key: u64) -> Answer {
        (self.find_walks)(table, key)
    }

    fn audit(&self, table: &mut [u32]) -> Answer {
        Model.audit(table)
    }

    fn save(&self, table: &mut [u32], record: &mut [u8]) -> Answer {
        (self.save)(table, record)
    }

    fn load(&self, table: &mut [u32], record: &mut [u8]) -> Answer {
        (self.load)(table, record)
    }

    fn key(&self, packet: &mut [u8], key: &mut [u8]) -> Answer {
        (self.key)(packet, key)
    }
}

/// The old firmware: its changes look at no more words than they need, and seating does not put L[W[N]] back.
pub const FIRMWARE: Faulty = Faulty {
    seat: |table, id| {
        stored(table, Model.seat(&mut table.to_vec(), id), |parts| {
            let cut_off = parts.W[parts.N as usize] as usize;
            let kept = parts.L[cut_off];
            let seat = parts.seat(id);
            parts.L[cut_off] = kept;
            seat
        })
    },
    out: |table, id| {
        stored(table, Model.out(&mut table.to_vec(), id), |parts| {
            let seat = parts.S.iter().position(|server| *server == id).expect("seated") as u32;
            parts.take_out(seat);
            seat
        })
    },
    ..FAULTLESS
};

/// Changes that do nothing: taking out stores no word, and answers as if it had.
pub fn idle_out(table: &mut [u32], id: u32) -> Answer {
    Model.out(&mut table.to_vec(), id)
}

/// A change store by store, also where the model's answer is DAMAGED.
fn stored(table: &mut [u32], answer: Answer, change: impl Fn(&mut Parts) -> u32) -> Answer {
    if ![0, DAMAGED].contains(&answer.number) {
        return answer;
    }
    let mut parts = Parts::of_words(table).expect("legal shape");
    let seat = change(&mut parts);
    table.copy_from_slice(&parts.words());
    Answer::fine(&[seat.into()])
}

/// Seating into the lowest free seat instead of the last one out.
pub fn lowest_seat(table: &mut [u32], id: u32) -> Answer {
    let answer = Model.seat(&mut table.to_vec(), id);
    if answer.number != 0 {
        return answer;
    }
    let mut changed = Table::of_words(table).expect("sound");
    let lowest = *changed.removals.iter().min().expect("a free seat");
    changed.removals.retain(|seat| *seat != lowest);
    changed.servers[lowest as usize] = id;
    table.copy_from_slice(&changed.words());
    Answer::fine(&[lowest.into()])
}

/// Seating that exchanges two servers.
pub fn exchanging_seat(table: &mut [u32], id: u32) -> Answer {
    let answer = Model.seat(table, id);
    if answer.number == 0 {
        let ids = table.len() - table[0] as usize;
        let other = (ids..table.len()).find(|place| table[*place] != 0 && table[*place] != id).expect("another server");
        table.swap(ids + answer.values[0] as usize, other);
    }
    answer
}

pub fn value_beside_refusal(table: &mut [u32], id: u32) -> Answer {
    let answer = Model.seat(table, id);
    let values = answer.values.map(|value| if value == UNWRITTEN { 0 } else { value });
    Answer { values, ..answer }
}

/// Redraws as `next` says, which is given the parts, the seat and the position drawn, and tells the next seat and how
/// often K was followed. Where that does not end it gives up.
fn find_by(table: &mut [u32], key: u64, next: impl Fn(&Parts, u32, u32) -> (u32, u32)) -> Answer {
    let parts = match Parts::of_words(table) {
        Some(parts) => parts,
        None => return Model.find_walks(table, key),
    };
    let mut b = first_of(key, parts.a);
    let (mut draws, mut walks) = (1, 0);
    while parts.A[b as usize] != 0 && draws < 5000 {
        let (seat, follows) = next(&parts, b, pick_of(key, b, parts.A[b as usize]));
        if seat >= parts.a {
            return Answer::refused(DAMAGED);
        }
        b = seat;
        draws += 1;
        walks += follows;
    }
    found(match parts.S[b as usize] {
        0 => Err(DAMAGED),
        server => Ok(Found { seat: b, server, draws, walks }),
    })
}

/// Stopping the K walk when A[h] = A[b].
pub fn early_find(table: &mut [u32], key: u64) -> Answer {
    find_by(table, key, |parts, b, mut h| {
        let mut followed = 0;
        while h < parts.a && parts.A[h as usize] > parts.A[b as usize] && followed < parts.a {
            h = parts.K[h as usize];
            followed += 1;
        }
        (h, followed)
    })
}

/// Reading today's W on a redraw, and telling walks as if it had walked.
pub fn todays_find(table: &mut [u32], key: u64) -> Answer {
    find_by(table, key, |parts, b, h| {
        let follows = redraw(parts, b, h).map_or(0, |(_, follows)| follows);
        (*parts.W.get(h as usize).unwrap_or(&parts.a), follows)
    })
}

/// The model's lookup by other draws: the first seat, and the position at a seat.
fn drawn_by(table: &[u32], key: u64, first: fn(u64, u32) -> u32, pick: fn(u64, u32, u32) -> u32) -> Answer {
    let parts = Parts::of_words(table).ok_or(SIZE);
    found(parts.and_then(|parts| by_arrays(&parts, first(key, parts.a), |b, n| pick(key, b, n))))
}

/// The rule of before: seat 0 draws by the first draw's output.
pub fn find_before(table: &mut [u32], key: u64) -> Answer {
    drawn_by(table, key, first_of, pick_before)
}

/// hash(k) moved along, to output 2, which is seat 0's.
pub fn all_moved_along(table: &mut [u32], key: u64) -> Answer {
    drawn_by(table, key, |k, a| pick_of(k, 0, a), pick_of)
}

/// Another output at seat 0 alone, which is then seat 1's as well.
pub fn seat_zero_alone(table: &mut [u32], key: u64) -> Answer {
    drawn_by(table, key, first_of, |k, b, n| if b == 0 { pick_of(k, b, n) } else { pick_before(k, b, n) })
}

/// The output of before at seat 0, for keys that come to it from another seat.
pub fn before_from_elsewhere(table: &mut [u32], key: u64) -> Answer {
    let parts = Parts::of_words(table).expect("legal shape");
    let first = first_of(key, parts.a);
    let pick =
        if first == 0 { pick_of } else { |k, b, n| if b == 0 { pick_before(k, b, n) } else { pick_of(k, b, n) } };
    drawn_by(table, key, first_of, pick)
}

/// Sharing the keys out by the number of servers: most of them move at every change.
pub fn modulo_find(table: &mut [u32], key: u64) -> Answer {
    let parts = Parts::of_words(table).expect("legal shape");
    let seat = parts.W[first_of(key, parts.N) as usize];
    found(Ok(Found { seat, server: parts.S[seat as usize], draws: 1, walks: 0 }))
}

/// A draw count from nowhere.
pub fn one_draw(table: &mut [u32], key: u64) -> Answer {
    let answer = Model.find_walks(table, key);
    let [seat, server, draws, walks] = answer.values;
    Answer { values: [seat, server, draws.min(1), walks], ..answer }
}

/// The model's answer, but for the walks: `count` makes them of the follows of each redraw.
fn walks_by(table: &mut [u32], key: u64, count: impl Fn(&[u64]) -> u64) -> Answer {
    let answer = Model.find_walks(table, key);
    if answer.number != 0 {
        return answer;
    }
    let parts = Parts::of_words(table).expect("legal shape");
    let mut b = first_of(key, parts.a);
    let mut follows = Vec::new();
    while parts.A[b as usize] != 0 {
        let (seat, times) = redraw(&parts, b, pick_of(key, b, parts.A[b as usize])).expect("a lookup that ends");
        b = seat;
        follows.push(times.into());
    }
    with_walks(answer, count(&follows))
}

fn with_walks(answer: Answer, walks: u64) -> Answer {
    let [seat, server, draws, _] = answer.values;
    Answer { values: [seat, server, draws, walks], ..answer }
}

/// A count of walks from nowhere.
pub fn no_walks(table: &mut [u32], key: u64) -> Answer {
    walks_by(table, key, |_| 0)
}

/// The redraws counted, and not what they followed.
pub fn a_walk_for_each_redraw(table: &mut [u32], key: u64) -> Answer {
    walks_by(table, key, |follows| follows.len() as u64)
}

/// A count that begins anew at each redraw.
pub fn walks_of_the_last_redraw(table: &mut [u32], key: u64) -> Answer {
    walks_by(table, key, |follows| *follows.last().unwrap_or(&0))
}

/// The position drawn counted as if K led to it.
pub fn walks_to_positions(table: &mut [u32], key: u64) -> Answer {
    walks_by(table, key, |follows| follows.iter().map(|times| 1 + times).sum())
}

/// Walks of sound tables only.
pub fn walks_where_sound(table: &mut [u32], key: u64) -> Answer {
    match Table::of_words(table) {
        Ok(_) => Model.find_walks(table, key),
        Err(_) => no_walks(table, key),
    }
}

/// Walks that change with N and with the server, and not with the way alone.
pub fn walks_and_more(table: &mut [u32], key: u64) -> Answer {
    let answer = Model.find_walks(table, key);
    match answer {
        Answer { number: 0, values: [_, server, _, walks] } => with_walks(answer, walks + u64::from(table[1]) + server),
        _ => answer,
    }
}

/// A total of 16 bits.
pub fn narrow_walks(table: &mut [u32], key: u64) -> Answer {
    walks_by(table, key, |follows| follows.iter().sum::<u64>() % (1 << 16))
}

/// Walks told beside a refusal.
pub fn walks_beside_refusal(table: &mut [u32], key: u64) -> Answer {
    let answer = Model.find_walks(table, key);
    match answer.number {
        0 => answer,
        _ => with_walks(answer, 0),
    }
}

/// find's values shifted: the walks in place of the draws.
pub fn walks_for_draws(answer: Answer) -> Answer {
    let [seat, server, _, walks] = answer.values;
    Answer { values: [seat, server, walks, UNWRITTEN], ..answer }
}

/// find that writes a fourth value.
pub fn four_values(answer: Answer) -> Answer {
    answer
}

pub fn bytes_beside_refusal(table: &mut [u32], record: &mut [u8]) -> Answer {
    let answer = Model.save(table, record);
    if answer.number == ROOM {
        record.iter_mut().take(2).for_each(|byte| *byte = 0x41);
    }
    answer
}

/// a and N in the wrong order of their bytes.
pub fn little_endian(table: &mut [u32], record: &mut [u8]) -> Answer {
    let answer = Model.save(table, record);
    if answer.number == 0 {
        record.swap(2, 3);
        record.swap(4, 5);
    }
    answer
}

/// Loading that takes two seats that are in use by one id.
pub fn easy_load(table: &mut [u32], record: &mut [u8]) -> Answer {
    match calls::load(table, record) {
        Err(FORM) if record.len() == 22 && record[10..14] == record[18..] => Answer::fine(&[2]),
        result => Answer::of(result),
    }
}

/// Loading that measures the run before it has read the record through.
pub fn hasty_load(table: &mut [u32], record: &mut [u8]) -> Answer {
    match record.get(2..4) {
        Some(a) if table.len() != words(usize::from(a[0]) * 256 + usize::from(a[1])) => Answer::refused(SIZE),
        _ => Model.load(table, record),
    }
}

/// Loading that takes the removals by their seats and not as they stand.
pub fn orderless_load(table: &mut [u32], record: &mut [u8]) -> Answer {
    let answer = Model.load(table, record);
    if let Ok(mut loaded) = Table::of_words(table) {
        loaded.removals.sort_unstable();
        table.copy_from_slice(&loaded.words());
    }
    answer
}
