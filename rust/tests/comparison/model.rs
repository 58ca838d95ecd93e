//! The model only: no library is asked.
use crate::random::Random;
use steamacorn::model::find::redraw;
use steamacorn::model::parts::Parts;
use steamacorn::model::table::Table;

/// The history that is kept is what the changes, store by store, leave.
#[test]
fn the_changes_leave_what_the_history_says() {
    for round in 0..300 {
        let mut random = Random::new(round);
        let a = 1 + random.below(12);
        let used = 1 + random.below(a);
        let ids = random.ids(used);
        let mut table = Table::opened(a as u32, &ids);
        let mut parts = Parts::opened(a as u32, &ids);
        for _ in 0..100 {
            if random.below(2) == 0 {
                let b = random.one_of(parts.line());
                if table.take_out(parts.S[b as usize]) == Ok(b) {
                    parts.take_out(b);
                }
            } else {
                let id = random.word() | 1 << 31;
                if let Ok(b) = table.seat(id) {
                    assert_eq!(parts.seat(id), b);
                }
            }
            assert_eq!(table.words(), parts.words());
            assert_eq!(Table::of_words(&parts.words()).as_ref(), Ok(&table));
        }
    }
}

/// Every redraw of a sound table, from each position: by the arrays it leads where the line says, and it follows K at
/// most a - N times.
#[test]
fn a_redraw_follows_k_at_most_as_often_as_seats_are_out() {
    let mut reached = 0;
    for round in 0..1000 {
        let table = Random::new(round).table(1 + round as usize % 40);
        let parts = Parts::of_words(&table.words()).expect("legal shape");
        for (b, line) in (0..).zip(table.lines()) {
            for (position, seat) in (0..).zip(line.iter().flatten()) {
                let (next, follows) = redraw(&parts, b, position).expect("sound");
                assert_eq!(next, *seat);
                assert!(follows <= parts.a - parts.N);
                reached += u32::from(follows == parts.a - parts.N);
            }
        }
    }
    println!("{} redraws follow K a - N times", reached);
    assert_ne!(reached, 0);
}
