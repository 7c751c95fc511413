//! Requests damaged at random: a byte changed, removed or inserted, a cut, bytes added, two bytes
//! swapped, a context, message or label byte changed, a code replaced.

use super::draft::{Draft, Mark};
use super::rng::Rng;

/// A damaged copy of a request.
pub fn damaged(rng: &mut Rng, draft: &Draft) -> Vec<u8> {
    let mut bytes = draft.bytes.clone();
    let place = rng.below(bytes.len());
    match rng.below(8) {
        0 => bytes[place] = rng.byte(),
        1 => drop(bytes.remove(place)),
        2 => {
            let byte = rng.byte();
            bytes.insert(place, byte);
        }
        3 => bytes.truncate(place),
        4 => bytes.extend((0..rng.between(1, 3)).map(|_| rng.byte())),
        5 => bytes.swap(place, rng.below(draft.bytes.len())),
        6 => change_marked(rng, &mut bytes, draft, is_number),
        _ => change_marked(rng, &mut bytes, draft, is_code),
    }
    bytes
}

/// Context, message and label bytes.
fn is_number(mark: Mark) -> bool {
    matches!(mark, Mark::Context | Mark::Message | Mark::Label)
}

fn is_code(mark: Mark) -> bool {
    matches!(mark, Mark::Code(_))
}

/// Sets one of the marked bytes to the byte of another marked place, or to a byte near it.
fn change_marked(rng: &mut Rng, bytes: &mut [u8], draft: &Draft, wanted: fn(Mark) -> bool) {
    let marked = draft.marks.iter().filter(|(mark, _)| wanted(*mark));
    let places: Vec<usize> = marked.map(|(_, place)| *place).collect();
    if places.is_empty() {
        return;
    }
    let place = rng.pick(&places);
    let other = bytes[rng.pick(&places)];
    bytes[place] = if rng.one_in(3) { bytes[place].wrapping_add(1) } else { other };
}
