//! A selection of generated calls that is small enough to be stored and has every cause.

use crate::generate::Kind;
use crate::requests::Request;
use crate::tally::Tally;
use std::collections::BTreeMap;

/// The fixed set, and of the random calls each that brings a cause seen fewer than `each` times and is no larger than `most`.
pub fn selected(kind: Kind, seed: u64, count: u64, each: u64, most: usize) -> impl Iterator<Item = Request> {
    let mut seen: BTreeMap<String, u64> = BTreeMap::new();
    (0..kind.fixed() + count).filter_map(move |index| {
        let request = kind.request(seed, index);
        if index < kind.fixed() {
            return Some(request);
        }
        if size(&request) > most {
            return None;
        }
        let mut tally = Tally::default();
        tally.request(&request);
        let is_new = tally.keys().any(|key| seen.get(key).copied().unwrap_or(0) < each);
        if !is_new {
            return None;
        }
        for key in tally.keys() {
            *seen.entry(key.clone()).or_insert(0) += 1;
        }
        Some(request)
    })
}

/// About what is left of a request after compression: its bytes that differ from the one before them.
fn size(request: &Request) -> usize {
    let mut bytes = Vec::new();
    request.write(&mut bytes).expect("a vector takes everything");
    bytes.windows(2).filter(|pair| pair[0] != pair[1]).count()
}
