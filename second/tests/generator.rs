//! The generator reaches every refusal, answer and construct, and repeats itself.

use second::cases;
use second::count::Tally;
use second::generate::builder::{self, foci};
use second::generate::rng::Rng;
use second::generate::{self, boundaries, dictionaries, inputs, Case, Size};
use second::hex;
use second::listing::listing;
use second::reader;

/// All numbers given back.
fn numbers() -> impl Iterator<Item = u32> {
    (1..=16).chain(20..=26)
}

/// Every refusal and answer at least so many times, and every code.
fn reaches_all(tally: &Tally, least: usize) {
    for number in numbers() {
        let count = tally.refusals.get(&number).copied().unwrap_or_default();
        assert!(count >= least, "refusal {number} came {count} times");
    }
    for answer in ["accepted", "true", "false"] {
        assert!(tally.answers[answer] >= 10, "{answer}");
    }
    for answer in ["missing bit", "missing reading", "missing flag"] {
        assert!(tally.answers[answer] >= 5, "{answer}");
    }
    for focus in foci() {
        assert!(tally.codes.contains_key(&focus), "{focus:?} did not come");
    }
}

#[test]
fn small_cases_reach_all() {
    let tally = Tally::of(generate::cases(Size::Small, 1, 500));
    assert!(tally.evaluations >= 120);
    reaches_all(&tally, 3);
}

#[test]
fn small_cases_of_other_seeds_reach_all() {
    for seed in [0, 2, 77, u64::MAX] {
        reaches_all(&Tally::of(generate::cases(Size::Small, seed, 600)), 3);
    }
}

#[test]
fn mixed_cases_reach_all() {
    reaches_all(&Tally::of(generate::cases(Size::Mixed, 1, 3000)), 20);
}

#[test]
fn small_cases_are_small() {
    let cases: Vec<Case> = generate::cases(Size::Small, 3, 400).collect();
    let is_short = |case: &&Case| {
        let (dictionary, request) = case.bytes();
        dictionary.len() <= 150 && request.len() <= 150
    };
    let short = cases.iter().filter(is_short).count();
    assert!(short * 10 >= cases.len() * 9, "{short} of {}", cases.len());
}

#[test]
fn cases_repeat() {
    let lines = |seed| -> Vec<String> {
        generate::cases(Size::Mixed, seed, 60).map(|case| cases::line(&case)).collect()
    };
    assert_eq!(lines(5), lines(5));
    assert_ne!(lines(5), lines(6));
}

#[test]
fn written_requests_are_accepted() {
    let foci = foci();
    for turn in 0..3000 {
        let mut rng = Rng::new(turn as u64);
        let size = if turn % 2 == 0 { Size::Small } else { Size::Mixed };
        let dictionary = dictionaries::proper(&mut rng, size);
        let focus = foci[turn % foci.len()];
        let draft = builder::request(&mut rng, &dictionary, size, focus, turn % 3 == 0);
        let encoded = dictionaries::encode(&dictionary);
        let (parsed, read) = reader::parse(&draft.bytes, &encoded).expect("accepted");
        assert_eq!(read, dictionary);
        assert!(turn % 3 != 0 || !parsed.conditions.is_empty());
    }
}

#[test]
fn damaged_dictionaries_break_every_rule() {
    for way in 0..dictionaries::DAMAGES {
        let refused = (0..20).filter(|seed| {
            let mut rng = Rng::new(*seed);
            let dictionary = dictionaries::proper(&mut rng, Size::Small);
            let damaged = dictionaries::damaged(&mut rng, &dictionary, way);
            second::dictionary::Dictionary::check(&damaged).is_err()
        });
        assert!(refused.count() >= 10, "way {way}");
    }
}

#[test]
fn boundaries_have_both_sides() {
    let tally = Tally::of(boundaries::all().into_iter());
    for number in [1, 2, 3, 8, 12, 13, 16, 22, 26] {
        assert!(tally.refusals.contains_key(&number), "refusal {number}");
    }
    assert!(tally.answers["accepted"] > 40);
}

#[test]
fn records_are_refused_at_all_three_places() {
    let (mut at_end, mut too_many, mut wrong) = (0, 0, 0);
    for case in generate::cases(Size::Small, 9, 2000) {
        let Case::Evaluate { dictionary, request, condition, records, .. } = &case else {
            continue;
        };
        let outcome = cases::outcome(&case);
        let Some(place) = outcome.strip_prefix("refused 22 ") else {
            continue;
        };
        let place: usize = place.parse().expect("a place");
        let (parsed, read) = reader::parse(request, dictionary).expect("accepted");
        let contexts = &parsed.conditions[*condition].contexts;
        let length =
            |context: &usize| read.relations[parsed.contexts[*context].relation].entry_length();
        let due: usize = contexts.iter().map(length).sum();
        match place {
            place if place == records.len() => at_end += 1,
            place if place == due => too_many += 1,
            _ => wrong += 1,
        }
    }
    assert!(at_end >= 3 && too_many >= 3 && wrong >= 3, "{at_end} {too_many} {wrong}");
}

#[test]
fn runs_are_refused_at_all_three_places() {
    let (mut at_end, mut too_many, mut wrong) = (0, 0, 0);
    for case in generate::cases(Size::Small, 9, 4000) {
        let Case::Evaluate { runs, .. } = &case else {
            continue;
        };
        let outcome = cases::outcome(&case);
        let Some(place) = outcome.strip_prefix("refused 26 ") else {
            continue;
        };
        let place: usize = place.parse().expect("a place");
        // With what stands from the place on taken away, runs are as due, or one lacks.
        let mut shorter = case.clone();
        if let Case::Evaluate { runs, .. } = &mut shorter {
            runs.truncate(place);
        }
        let lacks = cases::outcome(&shorter).starts_with("refused 26 ");
        match place {
            place if place == runs.len() => at_end += 1,
            _ if lacks => wrong += 1,
            _ => too_many += 1,
        }
    }
    assert!(at_end >= 3 && too_many >= 3 && wrong >= 3, "{at_end} {too_many} {wrong}");
}

#[test]
fn inputs_reach_every_line() {
    let outputs: Vec<String> = inputs::inputs(1, 500).iter().map(|input| listing(input)).collect();
    let with = |start: &str| outputs.iter().filter(|output| output.starts_with(start)).count();
    assert!(with("request ") >= 100 && with("bad input\n") >= 50);
    // The program's tables are long enough, and a request in an entry is not too long: no 1, no 2.
    for number in 3..=16 {
        assert!(with(&format!("refused {number} at ")) >= 3, "refusal {number}");
    }
    let lines = |word: &str| outputs.iter().map(|output| output.matches(word).count()).max();
    assert_eq!(lines("statement"), Some(512));
    assert_eq!(lines("parameter"), Some(256));
    assert_eq!(lines("context"), Some(32));
}

#[test]
fn byte_strings_are_written_and_read() {
    let long = [vec![4, 2], vec![0; 65_536], vec![255]].concat();
    assert_eq!(hex::write(&long), "0402(00*65536)ff");
    assert_eq!(hex::read("0402(00*65536)ff"), Some(long));
    assert_eq!(hex::write(&[]), "-");
    assert_eq!(hex::read("-"), Some(Vec::new()));
    assert_eq!(hex::write(&[0xAB; 63]), "ab".repeat(63));
    assert_eq!(hex::write(&[0xAB; 64]), "(ab*64)");
    assert_eq!(hex::read("0"), None);
    assert_eq!(hex::read("0g"), None);
    assert_eq!(hex::read("(00*)"), None);
}

#[test]
fn a_line_has_its_rows() {
    let case = Case::Read {
        dictionary: Vec::new(),
        request: vec![4, 2, 4, 7, 2, 0, 8, 255, 35, 2, 255, 255, 76],
        lengths: [2560, 1536, 192],
    };
    let line = "read - 04020407020008ff2302ffff4c 2560 1536 192 = accepted 2 2 0 \
                | 1 2 0 12 0 ; 9 2 1 11 0 | 7 0 8 255 0 4 ; 7 1 35 0 4 8 |";
    assert_eq!(cases::line(&case), line);
}

#[test]
fn any_bytes_have_an_outcome() {
    let mut rng = Rng::new(4);
    for _ in 0..20_000 {
        let [dictionary, request, messages, records] = [0; 4].map(|_| {
            let length = rng.below(40);
            (0..length).map(|_| rng.pick(&[0, 1, 2, 4, 7, 8, 11, 67, 255, 76])).collect::<Vec<u8>>()
        });
        let begun = [&[4, 2], request.as_slice()].concat();
        for request in [request, begun] {
            let lengths = [2560, 1536, 192];
            let read = Case::Read { dictionary: Vec::new(), request: request.clone(), lengths };
            let evaluate = Case::Evaluate {
                dictionary: dictionary.clone(),
                request,
                condition: 0,
                messages: messages.clone(),
                records: records.clone(),
                runs: messages.clone(),
            };
            assert!(!cases::outcome(&read).is_empty() && !cases::outcome(&evaluate).is_empty());
        }
        listing(&dictionary);
    }
}
