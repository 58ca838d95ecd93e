//! The comparisons themselves: the model passes them, and a model with a known fault does not.
use crate::compare::Same;
use crate::faults::*;
use crate::key_faults::*;
use crate::library::{Library, Model};
use crate::{changes, damage, edges, examples, histories, keys, lookups, packets, records, seat_zero, walks};

fn passes(name: &str, compare: fn(&dyn Library) -> Same<u64>) {
    match compare(&Model) {
        Ok(calls) => println!("{}: {} calls compared, the model with itself", name, calls),
        Err(difference) => panic!("{}", difference),
    }
}

#[test]
fn the_model_passes_changes() {
    passes("changes", changes::compare);
}

#[test]
fn the_model_passes_damage() {
    passes("damage", damage::compare);
}

#[test]
fn the_model_passes_lookups() {
    passes("lookups", lookups::compare);
}

#[test]
fn the_model_passes_walks() {
    passes("walks", walks::compare);
}

#[test]
fn the_model_passes_records() {
    passes("records", records::compare);
}

#[test]
fn the_model_passes_edges() {
    passes("edges", edges::compare);
}

#[test]
fn the_model_passes_histories() {
    passes("undo", histories::undo);
    passes("histories, struck", histories::struck);
}

#[test]
fn the_model_passes_keys() {
    passes("keys before and after changes", keys::moved);
    passes("keys by both rules", keys::rules);
    passes("keys, again", keys::again);
}

#[test]
fn the_model_passes_seat_zero() {
    passes("keys of seat 0", seat_zero::shares);
    passes("positions drawn at seat 0", seat_zero::positions);
    passes("keys moved by the rule", seat_zero::moved);
    passes("a record of before", seat_zero::record);
}

#[test]
fn the_model_saves_and_loads() {
    passes("saving and loading", records::opposites);
    passes("edges of the record", records::edges);
}

#[test]
fn the_model_passes_examples() {
    passes("examples", examples::compare);
}

#[test]
fn the_model_passes_packets() {
    passes("edges of the packet", packets::edges);
    passes("packets, random", packets::random);
    passes("packets, bit by bit", packets::bits);
    passes("bits that count and do not", packets::counted);
    passes("packets, captured", packets::captured);
    passes("packets, worked out", packets::worked);
    passes("fragments", packets::fragments);
    passes("servers for packets", packets::servers);
}

/// The comparison tells a difference, which begins so.
fn caught(compare: fn(&dyn Library) -> Same<u64>, faulty: Faulty, what: &str) {
    let difference = compare(&faulty).expect_err("a difference");
    println!("{}", difference);
    assert!(difference.starts_with(what));
}

#[test]
fn a_forgotten_position_is_caught() {
    caught(changes::compare, FIRMWARE, "seat: place");
    caught(histories::undo, FIRMWARE, "undo: place");
    caught(histories::struck, FIRMWARE, "what is left over: place");
    caught(examples::compare, FIRMWARE, "E8: place");
}

#[test]
fn a_change_that_does_nothing_is_caught() {
    let idle = || Faulty { out: idle_out, ..FAULTLESS };
    caught(histories::undo, idle(), "out: the seat's server");
    caught(histories::struck, idle(), "out: the seat's server");
    caught(keys::moved, idle(), "out: the seat's server");
    caught(keys::again, idle(), "out: the seat's server");
}

#[test]
fn another_seat_is_caught() {
    caught(histories::undo, Faulty { seat: lowest_seat, ..FAULTLESS }, "undo: the seat");
    caught(histories::struck, Faulty { seat: lowest_seat, ..FAULTLESS }, "strike: the seat");
    caught(keys::again, Faulty { seat: lowest_seat, ..FAULTLESS }, "key ");
}

#[test]
fn another_id_is_caught() {
    caught(histories::struck, Faulty { seat: exchanging_seat, ..FAULTLESS }, "the id last given: place");
}

#[test]
fn a_walk_that_stops_early_is_caught() {
    caught(lookups::compare, Faulty { find_walks: early_find, ..FAULTLESS }, "find ");
    caught(changes::compare, Faulty { find_walks: early_find, ..FAULTLESS }, "find ");
}

#[test]
fn a_find_that_moves_other_keys_is_caught() {
    caught(keys::moved, Faulty { find_walks: modulo_find, ..FAULTLESS }, "key ");
}

/// It moves no other keys: the rules alone tell it.
#[test]
fn todays_line_is_caught() {
    caught(keys::rules, Faulty { find_walks: todays_find, ..FAULTLESS }, "by sets");
    caught(examples::compare, Faulty { find_walks: todays_find, ..FAULTLESS }, "E4 to E7");
}

#[test]
fn the_rule_of_before_is_caught() {
    let before = || Faulty { find_walks: find_before, ..FAULTLESS };
    caught(keys::rules, before(), "by sets");
    caught(seat_zero::shares, before(), "find ");
    caught(seat_zero::positions, before(), "the positions drawn");
    caught(seat_zero::moved, before(), "find ");
}

#[test]
fn a_first_draw_that_moved_along_is_caught() {
    let along = || Faulty { find_walks: all_moved_along, ..FAULTLESS };
    caught(keys::rules, along(), "by sets");
    caught(seat_zero::shares, along(), "find ");
    caught(seat_zero::positions, along(), "draws of a key of seat 0");
    caught(seat_zero::moved, along(), "find ");
}

/// Where seat 0 is the last one out, its keys do not tell it.
#[test]
fn another_output_at_seat_0_alone_is_caught() {
    caught(keys::rules, Faulty { find_walks: seat_zero_alone, ..FAULTLESS }, "by sets");
    caught(seat_zero::moved, Faulty { find_walks: seat_zero_alone, ..FAULTLESS }, "find ");
}

#[test]
fn the_rule_of_before_for_keys_from_elsewhere_is_caught() {
    caught(keys::rules, Faulty { find_walks: before_from_elsewhere, ..FAULTLESS }, "by sets");
    caught(seat_zero::shares, Faulty { find_walks: before_from_elsewhere, ..FAULTLESS }, "find ");
    caught(seat_zero::moved, Faulty { find_walks: before_from_elsewhere, ..FAULTLESS }, "find ");
}

#[test]
fn draws_from_nowhere_are_caught() {
    caught(keys::rules, Faulty { find_walks: one_draw, ..FAULTLESS }, "by sets");
    caught(examples::compare, Faulty { find_walks: one_draw, ..FAULTLESS }, "E4 to E7");
}

#[test]
fn walks_from_nowhere_are_caught() {
    caught(keys::rules, Faulty { find_walks: no_walks, ..FAULTLESS }, "by the arrays");
    caught(examples::compare, Faulty { find_walks: no_walks, ..FAULTLESS }, "E4 to E7");
    caught(keys::rules, Faulty { find_walks: a_walk_for_each_redraw, ..FAULTLESS }, "by the arrays");
    caught(examples::compare, Faulty { find_walks: a_walk_for_each_redraw, ..FAULTLESS }, "E4 to E7");
}

#[test]
fn walks_counted_otherwise_are_caught() {
    caught(keys::rules, Faulty { find_walks: walks_of_the_last_redraw, ..FAULTLESS }, "by the arrays");
    caught(examples::compare, Faulty { find_walks: walks_of_the_last_redraw, ..FAULTLESS }, "E4 to E7");
    caught(keys::rules, Faulty { find_walks: walks_to_positions, ..FAULTLESS }, "by the arrays");
    caught(examples::compare, Faulty { find_walks: walks_to_positions, ..FAULTLESS }, "E4 to E7");
    caught(walks::compare, Faulty { find_walks: narrow_walks, ..FAULTLESS }, "find_walks ");
}

#[test]
fn walks_of_a_key_that_stays_are_watched() {
    caught(keys::moved, Faulty { find_walks: walks_and_more, ..FAULTLESS }, "key ");
    caught(keys::again, Faulty { find_walks: walks_and_more, ..FAULTLESS }, "key ");
}

/// Sound tables do not tell it.
#[test]
fn walks_of_sound_tables_only_are_caught() {
    caught(damage::compare, Faulty { find_walks: walks_where_sound, ..FAULTLESS }, "find_walks ");
    caught(walks::compare, Faulty { find_walks: walks_where_sound, ..FAULTLESS }, "find_walks ");
}

#[test]
fn a_find_that_tells_walks_is_caught() {
    caught(lookups::compare, Faulty { find: walks_for_draws, ..FAULTLESS }, "find ");
    caught(keys::moved, Faulty { find: walks_for_draws, ..FAULTLESS }, "find ");
    caught(examples::compare, Faulty { find: walks_for_draws, ..FAULTLESS }, "find ");
    caught(edges::compare, Faulty { find: four_values, ..FAULTLESS }, "find ");
    caught(keys::again, Faulty { find: four_values, ..FAULTLESS }, "find ");
}

#[test]
fn a_value_beside_a_refusal_is_caught() {
    caught(edges::compare, Faulty { seat: value_beside_refusal, ..FAULTLESS }, "seat: Answer");
    caught(edges::compare, Faulty { find_walks: walks_beside_refusal, ..FAULTLESS }, "find_walks ");
    caught(damage::compare, Faulty { find_walks: walks_beside_refusal, ..FAULTLESS }, "find_walks ");
}

#[test]
fn bytes_written_beside_a_refusal_are_caught() {
    caught(edges::compare, Faulty { save: bytes_beside_refusal, ..FAULTLESS }, "save: place");
    caught(examples::compare, Faulty { save: bytes_beside_refusal, ..FAULTLESS }, "save: place");
}

#[test]
fn another_record_is_caught() {
    caught(examples::compare, Faulty { save: little_endian, ..FAULTLESS }, "save: place");
    caught(seat_zero::record, Faulty { save: little_endian, ..FAULTLESS }, "saved: place");
}

#[test]
fn a_record_taken_too_easily_is_caught() {
    caught(records::compare, Faulty { load: easy_load, ..FAULTLESS }, "load: Answer");
    caught(records::edges, Faulty { load: easy_load, ..FAULTLESS }, "a server twice");
}

#[test]
fn another_order_of_refusals_is_caught() {
    caught(records::edges, Faulty { load: hasty_load, ..FAULTLESS }, "the head alone");
}

#[test]
fn a_load_that_is_not_the_opposite_is_caught() {
    caught(records::opposites, Faulty { load: orderless_load, ..FAULTLESS }, "loaded: place");
    caught(examples::compare, Faulty { load: orderless_load, ..FAULTLESS }, "load: place");
    caught(seat_zero::record, Faulty { load: orderless_load, ..FAULTLESS }, "loaded: place");
}

#[test]
fn ports_of_a_fragment_are_caught() {
    let first = || Faulty { key: ports_of_first_fragment, ..FAULTLESS };
    caught(packets::edges, first(), "key: place");
    caught(packets::random, first(), "key: place");
    caught(packets::fragments, first(), "the fragment of bytes 0..8:");
    caught(packets::captured, first(), "IPv4 UDP fragments, piece 1;");
    caught(packets::worked, first(), "the packet [69, 0, 0, 24, 0, 0, 32, 0");
    let last = || Faulty { key: ports_of_last_fragment, ..FAULTLESS };
    caught(packets::edges, last(), "key: place");
    caught(packets::fragments, last(), "the fragment of bytes 8..16:");
    caught(packets::captured, last(), "IPv4 UDP fragments, piece 3;");
}

#[test]
fn a_flag_taken_for_a_fragment_is_caught() {
    caught(packets::edges, Faulty { key: any_flag, ..FAULTLESS }, "key: place");
    caught(packets::bits, Faulty { key: any_flag, ..FAULTLESS }, "key: place");
    caught(packets::counted, Faulty { key: any_flag, ..FAULTLESS }, "bit 49, which does not count:");
    caught(packets::captured, Faulty { key: any_flag, ..FAULTLESS }, "IPv4 TCP SYN;");
}

#[test]
fn ports_from_elsewhere_are_caught() {
    let options = || Faulty { key: ports_among_options, ..FAULTLESS };
    caught(packets::edges, options(), "key: place");
    caught(packets::bits, options(), "key: place");
    caught(packets::counted, options(), "bit 160, which does not count:");
    caught(packets::fragments, options(), "the whole:");
    caught(packets::servers, options(), "the server:");
    caught(packets::captured, options(), "IPv4 UDP, router alert;");
    caught(packets::worked, options(), "the packet [70, ");
    caught(packets::edges, Faulty { key: ports_beyond_total, ..FAULTLESS }, "key: Answer");
    caught(packets::random, Faulty { key: ports_beyond_total, ..FAULTLESS }, "key: Answer");
    caught(packets::edges, Faulty { key: ports_beyond_payload, ..FAULTLESS }, "key: Answer");
    caught(packets::edges, Faulty { key: no_source_port_0, ..FAULTLESS }, "key: Answer");
}

#[test]
fn words_in_another_order_are_caught() {
    caught(packets::edges, Faulty { key: exchanged_words, ..FAULTLESS }, "key: place");
    caught(packets::captured, Faulty { key: exchanged_words, ..FAULTLESS }, "IPv6 TCP SYN;");
    caught(packets::worked, Faulty { key: exchanged_words, ..FAULTLESS }, "the packet [96, ");
}

#[test]
fn ports_that_do_not_count_are_caught() {
    caught(packets::edges, Faulty { key: no_ports_of_tcp, ..FAULTLESS }, "key: place");
    caught(packets::counted, Faulty { key: no_ports_of_tcp, ..FAULTLESS }, "bit 224, which counts:");
}

#[test]
fn a_packet_taken_too_easily_is_caught() {
    caught(packets::edges, Faulty { key: easy_key, ..FAULTLESS }, "key: Answer");
    caught(packets::random, Faulty { key: easy_key, ..FAULTLESS }, "key: Answer");
}

#[test]
fn a_walked_extension_is_caught() {
    caught(packets::edges, Faulty { key: walked_extension, ..FAULTLESS }, "key: place");
    caught(packets::captured, Faulty { key: walked_extension, ..FAULTLESS }, "IPv6 hop by hop;");
}

#[test]
fn other_rooms_for_a_key_are_caught() {
    caught(packets::edges, Faulty { key: hasty_key, ..FAULTLESS }, "key: Answer");
    caught(packets::edges, Faulty { key: roomy_key, ..FAULTLESS }, "key: Answer");
    caught(packets::edges, Faulty { key: byte_of_room, ..FAULTLESS }, "key: Answer");
}

#[test]
fn another_order_of_a_keys_bytes_is_caught() {
    caught(packets::edges, Faulty { key: little_endian_key, ..FAULTLESS }, "key: place");
    caught(packets::fragments, Faulty { key: little_endian_key, ..FAULTLESS }, "the whole:");
    caught(packets::servers, Faulty { key: little_endian_key, ..FAULTLESS }, "the server:");
    caught(packets::captured, Faulty { key: little_endian_key, ..FAULTLESS }, "IPv4 TCP SYN;");
}

#[test]
fn what_a_key_must_not_write_is_caught() {
    caught(packets::edges, Faulty { key: key_beside_refusal, ..FAULTLESS }, "key: place 0 of 8");
    caught(packets::edges, Faulty { key: forwarding_key, ..FAULTLESS }, "key: place 8 of");
}
