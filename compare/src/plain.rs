//! A store in place, as plain Rust would have it, to time the proved one against: the check of the whole buffer in one pass, a move of
//! bytes inside it, the two counts. It takes the erase and the add that the benchmark calls, and refuses nothing but a malformed store.

use second::dictionary::{Dictionary, Relation};
use second::store::{Call, GREATEST_LENGTH, HEADER, KIND};
use second::wire::READING;

/// What a check needs of a relation.
struct Layout {
    head: [u8; 6],
    size: usize,
    fields: usize,
    readings: Vec<(usize, usize)>,
}

fn layout(relation: &Relation) -> Layout {
    let size = relation.entry_length();
    let words = [size as u16, 3, relation.id].map(u16::to_le_bytes);
    let readings = (0..relation.fields.len())
        .filter(|field| relation.fields[*field].data.code == READING)
        .map(|field| (field, relation.field_offset(field)))
        .collect();
    let mut head = [0; 6];
    head.copy_from_slice(&words.concat());
    Layout { head, size, fields: relation.fields.len(), readings }
}

fn word(bytes: &[u8], at: usize) -> usize {
    usize::from(u16::from_le_bytes([bytes[at], bytes[at + 1]]))
}

fn ones(entry: &[u8], layout: &Layout) -> usize {
    entry[6..6 + layout.fields.div_ceil(8)].iter().map(|byte| byte.count_ones() as usize).sum()
}

/// Whether a record is as a store keeps it.
fn is_kept(entry: &[u8], layout: &Layout) -> bool {
    let spare = layout.fields % 8;
    entry[..6] == layout.head
        && (spare == 0 || entry[6 + layout.fields / 8] >> spare == 0)
        && layout.readings.iter().all(|(field, at)| {
            word(entry, *at) != 65_535 || entry[6 + field / 8] >> (field % 8) & 1 == 1
        })
}

/// The layout of a store's records and its counts, if it is well-formed.
fn check(dictionary: &[u8], buffer: &[u8]) -> Option<(Layout, usize, usize)> {
    let house = Dictionary::check(dictionary).ok()?;
    if buffer.len() > GREATEST_LENGTH || buffer.len() < HEADER {
        return None;
    }
    let index = house.relation_by_id(word(buffer, 4) as u16)?;
    let layout = layout(&house.relations[index]);
    let (count, missing) = (word(buffer, 6), word(buffer, 8));
    let (records, rest) = buffer[HEADER..].split_at_checked(count * layout.size)?;
    let mut sum = 0;
    for entry in records.chunks_exact(layout.size) {
        if !is_kept(entry, &layout) {
            return None;
        }
        sum += ones(entry, &layout);
    }
    let good = word(buffer, 0) == HEADER
        && word(buffer, 2) == usize::from(KIND)
        && sum == missing
        && rest.iter().all(|byte| *byte == 0);
    good.then_some((layout, count, missing))
}

fn put_counts(buffer: &mut [u8], count: usize, missing: usize) {
    buffer[6..8].copy_from_slice(&(count as u16).to_le_bytes());
    buffer[8..10].copy_from_slice(&(missing as u16).to_le_bytes());
}

/// An erase or an add.
#[inline(never)]
pub fn call(dictionary: &[u8], buffer: &mut [u8], call: &Call) -> Option<()> {
    let (layout, count, missing) = check(dictionary, buffer)?;
    match call {
        Call::Erase(position) => {
            let at = HEADER + position * layout.size;
            let less = ones(&buffer[at..at + layout.size], &layout);
            buffer.copy_within(at + layout.size.., at);
            let end = buffer.len() - layout.size;
            buffer[end..].fill(0);
            put_counts(buffer, count - 1, missing - less);
        }
        Call::Add(entry) => {
            let at = HEADER + count * layout.size;
            let place = buffer.get_mut(at..at + layout.size)?;
            place.copy_from_slice(entry);
            for (field, offset) in &layout.readings {
                if word(entry, *offset) == 65_535 {
                    place[6 + field / 8] |= 1 << (field % 8);
                }
            }
            let more = ones(&buffer[at..at + layout.size], &layout);
            put_counts(buffer, count + 1, missing + more);
        }
        _ => return None,
    }
    Some(())
}

/// The average of the sums of two readings of each bed of a run, in plain Rust that knows the layout: beds of which either is 65535 or has
/// its missing bit are left out.
pub fn average(run: &[u8]) -> Option<i64> {
    let (mut sum, mut count) = (0i64, 0i64);
    for bed in run[4..].chunks_exact(11) {
        let [first, second] = [7, 9].map(|at| u16::from_le_bytes([bed[at], bed[at + 1]]));
        if bed[6] == 0 && first != u16::MAX && second != u16::MAX {
            sum = sum.checked_add(i64::from(first) + i64::from(second))?;
            count += 1;
        }
    }
    sum.checked_div(count)
}
