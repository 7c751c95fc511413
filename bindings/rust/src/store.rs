//! A store: the records of one relation in a buffer of the caller's.

use crate::ffi::{self, Answered};
use crate::layout::STORE_HEADER as HEADER;
use crate::refusal::Refusal;
use crate::request::Dictionary;

/// The records of one relation in a lent buffer of at most 65,535 bytes, in a form that can be kept and opened again.
///
/// Each call is done whole or refused, and a refused one leaves the buffer as it was. A record that is added or put gets the
/// missing bit of each reading of 65535.
///
/// ```
/// use greenblr::{record, Dictionary, Field, Reason, Store};
///
/// let dictionary = Dictionary::new(b"\x0b\0\x01\0\x01\0\x04BEDS\x0f\0\x02\0\0\0\xc8\xff\x02\0\x04HEAT")?;
/// let mut buffer = [0; 32];
/// let mut beds = Store::make(&dictionary, &mut buffer, 1)?;
/// beds.add(&record(1, &[Field::Reading(301)]))?;
/// beds.add(&record(1, &[Field::Reading(65535)]))?; // a node that could not measure
/// assert_eq!((beds.len(), beds.missing_count()), (2, 1));
/// assert_eq!(beds.get(0), Some(&record(1, &[Field::Reading(301)])[..]));
///
/// let full = beds.add(&record(1, &[Field::Reading(302)])).unwrap_err();
/// assert_eq!(full.reason(), Reason::NoRoom);
/// beds.erase(0)?;
/// assert_eq!(beds.len(), 1);
///
/// let again = Store::open(&dictionary, &mut buffer)?; // as it was left
/// assert_eq!((again.relation(), again.len(), again.missing_count()), (1, 1, 1));
/// # Ok::<(), greenblr::Refusal>(())
/// ```
#[derive(PartialEq, Eq, Debug)]
pub struct Store<'a> {
    dictionary: Dictionary<'a>,
    buffer: &'a mut [u8],
}

fn told(answered: Answered) -> Result<[usize; 3], Refusal> {
    answered.map_err(|(number, place)| Refusal::of_store(number, place))
}

impl<'a> Store<'a> {
    /// Makes an empty store of the relation of an id, whatever the buffer held. Refusals: 12 unknown relation, 50 a buffer over
    /// 65,535 bytes, 53 one under 10.
    pub fn make(
        dictionary: &Dictionary<'a>,
        buffer: &'a mut [u8],
        relation: u16,
    ) -> Result<Store<'a>, Refusal> {
        told(ffi::store_make(dictionary.bytes(), buffer, u32::from(relation)))?;
        Ok(Store { dictionary: *dictionary, buffer })
    }

    /// Opens the store that a buffer holds, or refuses it with 50.
    pub fn open(dictionary: &Dictionary<'a>, buffer: &'a mut [u8]) -> Result<Store<'a>, Refusal> {
        told(ffi::store_read(dictionary.bytes(), buffer))?;
        Ok(Store { dictionary: *dictionary, buffer })
    }

    /// Adds a record's entry at the end. Refusals: 52 not one proper record of the relation, 53 not enough free bytes.
    pub fn add(&mut self, entry: &[u8]) -> Result<(), Refusal> {
        told(ffi::store_add(self.dictionary.bytes(), self.buffer, entry)).map(drop)
    }

    /// Takes the record at a position out; those after it move down by one. Refusal: 51 no such position.
    pub fn erase(&mut self, position: usize) -> Result<(), Refusal> {
        told(ffi::store_erase(self.dictionary.bytes(), self.buffer, position)).map(drop)
    }

    /// Puts another record in the place of the one at a position. Refusals: 51 and 52.
    pub fn replace(&mut self, position: usize, entry: &[u8]) -> Result<(), Refusal> {
        told(ffi::store_replace(self.dictionary.bytes(), self.buffer, position, entry)).map(drop)
    }

    /// The relation's id, the count of records and the count of missing bits. A store that is open is never refused.
    fn counts(&self) -> [usize; 3] {
        ffi::store_read(self.dictionary.bytes(), self.buffer).unwrap_or_default()
    }

    /// The id of its relation.
    pub fn relation(&self) -> u16 {
        self.counts()[0] as u16
    }

    /// How many records it holds.
    pub fn len(&self) -> usize {
        self.counts()[1]
    }

    /// Whether it holds none.
    pub fn is_empty(&self) -> bool {
        self.len() == 0
    }

    /// How many missing bits are set in all records.
    pub fn missing_count(&self) -> usize {
        self.counts()[2]
    }

    /// The entry of the record at a position.
    pub fn get(&self, position: usize) -> Option<&[u8]> {
        let [place, length, _] =
            ffi::store_find(self.dictionary.bytes(), self.buffer, position).ok()?;
        self.buffer.get(place..place.checked_add(length)?)
    }

    /// The entries of the records in order. The buffer is tested once, and then gone through by the lengths of the entries.
    pub fn iter(&self) -> impl Iterator<Item = &[u8]> + '_ {
        let mut rest = self.buffer.get(HEADER..).unwrap_or_default();
        (0..self.len()).map_while(move |_| {
            let length = usize::from(u16::from_le_bytes([*rest.first()?, *rest.get(1)?]));
            let entry = rest.get(..length)?;
            rest = &rest[length..];
            Some(entry)
        })
    }

    /// The bytes of the buffer: a header, the records, zeros.
    pub fn bytes(&self) -> &[u8] {
        self.buffer
    }
}
