//! The groups of the differential test: which calls are made on which inputs. A group either goes over a fixed set of cases, or makes one case after
//! another from a generator of numbers until it has compared its share.

mod campaigns;
mod carriages;
mod dictionary;
mod fixed;
mod made;
mod named;
mod numbered;
mod rehearsals;
mod repeated;
mod seating;
mod seats;
mod sentences;

use crate::calls::Name;
use crate::inputs::Rng;
use crate::Harness;
use campaigns::*;
use carriages::*;
use dictionary::*;
use fixed::*;
use made::*;
use named::*;
use numbered::*;
use rehearsals::*;
use repeated::*;
use seating::*;
use seats::*;
use sentences::*;

pub enum Work {
    /// A fixed set of cases.
    Whole(fn(&mut Harness)),
    /// A share of the cases by weight, made one by one.
    Share(usize, fn(&mut Harness, &mut Rng)),
}

pub struct Group {
    pub name: &'static str,
    pub work: Work,
    /// The numbers that the group must have met, 0 for accepted: inputs that are all refused, or all accepted, show little.
    pub meets: &'static [u8],
}

pub const GROUPS: [Group; 66] = [
    Group { name: "library", work: Work::Whole(library), meets: &[0, 2] },
    Group { name: "count", work: Work::Whole(count), meets: &[0, 1] },
    Group { name: "circuits", work: Work::Whole(circuits), meets: &[0] },
    Group { name: "joins", work: Work::Whole(joins), meets: &[0] },
    Group { name: "long texts", work: Work::Whole(long_texts), meets: &[8, 11] },
    Group { name: "null", work: Work::Whole(null_pointers), meets: &[1, 2, 11, 15] },
    Group { name: "errors", work: Work::Whole(errors), meets: &[0, 15, 16] },
    Group { name: "kinds", work: Work::Whole(kinds), meets: &[0, 12, 14] },
    Group { name: "words", work: Work::Whole(words), meets: &[0, 12, 13, 14, 15] },
    Group { name: "words of rehearsals", work: Work::Whole(rehearsal_words), meets: &[0, 15] },
    Group { name: "crossing", work: Work::Share(2, crossing), meets: &[0] },
    Group { name: "check", work: Work::Share(4, |h, r| on_pattern(h, r, Name::Check)), meets: &[0, 1, 3, 4, 5] },
    Group { name: "check_panel", work: Work::Share(3, |h, r| on_panel(h, r, Name::CheckPanel)), meets: &[0, 1, 3, 4] },
    Group { name: "rank", work: Work::Share(5, |h, r| on_pattern(h, r, Name::Rank)), meets: &[0, 1, 3, 4, 5] },
    Group { name: "unrank", work: Work::Share(5, unrank), meets: &[0, 1, 6] },
    Group { name: "next", work: Work::Share(6, |h, r| on_pattern(h, r, Name::Next)), meets: &[0, 1, 3, 4, 5] },
    Group { name: "previous", work: Work::Share(6, |h, r| on_pattern(h, r, Name::Previous)), meets: &[0, 1, 3, 4, 5] },
    Group { name: "step", work: Work::Share(5, step), meets: &[0, 1, 6] },
    Group { name: "port_at", work: Work::Share(2, port_at), meets: &[0, 1, 3, 4, 17] },
    Group { name: "jack_of", work: Work::Share(2, jack_of), meets: &[0, 1, 3, 4, 17] },
    Group { name: "carry", work: Work::Share(5, carry), meets: &[0, 1, 3, 4, 17] },
    Group { name: "write_line", work: Work::Share(5, write_line), meets: &[0, 2, 17] },
    Group { name: "read_line", work: Work::Share(8, read_line), meets: &[0, 7, 8, 11, 17] },
    Group { name: "begin", work: Work::Share(4, begin), meets: &[0, 15] },
    Group { name: "damaged plans", work: Work::Share(6, damaged_plans), meets: &[0, 1, 6, 7, 8, 9, 10, 11, 15] },
    Group { name: "campaigns", work: Work::Share(12, campaigns), meets: &[0, 2, 12, 13, 14, 15] },
    Group { name: "reached states", work: Work::Share(5, reached_states), meets: &[0, 2, 12, 13, 14, 16] },
    Group { name: "damaged states", work: Work::Share(8, damaged_states), meets: &[0, 12, 13, 15] },
    Group { name: "random states", work: Work::Share(3, random_states), meets: &[0, 12, 15] },
    Group { name: "status", work: Work::Share(4, status), meets: &[0, 15] },
    Group { name: "report_mark", work: Work::Share(5, report_mark), meets: &[0, 12, 14, 15, 16] },
    Group { name: "sent twice", work: Work::Share(10, sent_twice), meets: &[0, 12, 14] },
    Group { name: "resume", work: Work::Share(6, resume), meets: &[0, 1, 3, 4, 15] },
    Group { name: "cuts", work: Work::Share(8, cuts), meets: &[0, 2, 12, 13, 14] },
    Group { name: "rehearse", work: Work::Share(3, rehearse), meets: &[0, 1, 6, 7, 8, 9, 10, 11, 15] },
    Group { name: "orders", work: Work::Share(4, orders), meets: &[0, 2] },
    Group { name: "rehearsals", work: Work::Share(3, rehearsals), meets: &[0, 2, 15] },
    Group { name: "damaged rehearsals", work: Work::Share(4, damaged_rehearsals), meets: &[0, 2, 15] },
    Group { name: "random rehearsals", work: Work::Share(2, random_rehearsals), meets: &[0, 15] },
    Group { name: "named", work: Work::Share(30, named), meets: &[0, 2] },
    Group { name: "named, damaged plans", work: Work::Share(6, damaged_named), meets: &[0, 1, 2, 6, 7, 8, 9, 10, 11] },
    Group { name: "dictionary_number", work: Work::Share(12, |h, r| on_numbered(h, r, Name::DictionaryNumber)), meets: &[0, 1, 3, 4, 5] },
    Group { name: "dictionary_pattern", work: Work::Share(12, dictionary_pattern), meets: &[0, 1, 6] },
    Group { name: "dictionary_next", work: Work::Share(15, |h, r| on_numbered(h, r, Name::DictionaryNext)), meets: &[0, 1, 3, 4, 5] },
    Group { name: "number_to_rank", work: Work::Share(12, number_to_rank), meets: &[0, 1, 6] },
    Group { name: "rank_to_number", work: Work::Share(12, rank_to_number), meets: &[0, 1, 6] },
    Group { name: "dictionary, walks", work: Work::Share(15, dictionary_walks), meets: &[0] },
    Group { name: "dictionary, there and back", work: Work::Share(12, there_and_back), meets: &[0] },
    Group { name: "carriages, random", work: Work::Share(3, carriages_by_chance), meets: &[0] },
    // fixed sets too, after the shares so that these are not smaller for them
    Group { name: "both jacks", work: Work::Whole(both_jacks), meets: &[3, 4, 5] },
    Group { name: "numbers and places", work: Work::Whole(numbers_and_places), meets: &[3, 4, 5] },
    Group { name: "sentences", work: Work::Whole(sentences), meets: &[0, 2] },
    Group { name: "seat lines", work: Work::Whole(seat_lines), meets: &[0, 1, 2, 3, 4, 7, 8, 11, 17] },
    Group { name: "seats, campaigns", work: Work::Whole(campaigns_with_errors), meets: &[0, 2, 12, 13, 14, 15] },
    Group { name: "seats, errors at their limit", work: Work::Whole(last_errors), meets: &[0, 2, 12, 13, 14, 15, 16] },
    Group { name: "seats, one field away", work: Work::Whole(one_field_away), meets: &[0, 2, 12, 14, 15] },
    Group { name: "seats, all states of 2 to 4 ports", work: Work::Whole(small_states), meets: &[0, 2, 12, 13, 14, 15] },
    Group { name: "seats, all panels of 2 to 4 ports", work: Work::Whole(small_panels), meets: &[0, 1, 3, 4, 15] },
    Group { name: "named, refusals", work: Work::Whole(named_refusals), meets: &[0, 1, 2, 6, 7, 8, 9, 10, 11] },
    Group { name: "dictionary, all patterns of 2 to 8 ports", work: Work::Whole(small_dictionaries), meets: &[0] },
    Group { name: "dictionary, ends", work: Work::Whole(dictionary_ends), meets: &[0, 6] },
    Group { name: "dictionary, lengths and ports", work: Work::Whole(lengths_and_ports), meets: &[0, 1, 3, 4, 5, 6] },
    Group { name: "dictionary, faults", work: Work::Whole(dictionary_faults), meets: &[3, 4, 5] },
    Group { name: "named, all plans of one and two legs over 2 to 5 ports", work: Work::Whole(small_plans), meets: &[0] },
    Group { name: "carriages, all pairs of patterns of 2 to 5 ports", work: Work::Whole(carriages_of_patterns), meets: &[0] },
    Group { name: "carriages, all panels of 2 to 5 ports", work: Work::Whole(carriages_of_panels), meets: &[0] },
];
