//! Counts how often each number, place kind and cause occurred.

mod assembles;
mod clashes;
mod loads;
mod misreads;
mod passes;
mod refusals;
mod roles;
mod runs;
mod spellings;
mod texts;
mod ways;

use crate::requests::{Program, Request};
use second::answer::Refusal;
use second::check;
use second::load::{self, Lengths};
use std::collections::BTreeMap;

#[derive(Default)]
pub struct Tally {
    calls: u64,
    counts: BTreeMap<String, u64>,
}

impl Tally {
    pub fn count(&mut self, key: String) {
        *self.counts.entry(key).or_insert(0) += 1;
    }

    /// Everything counted so far.
    pub fn keys(&self) -> impl Iterator<Item = &String> {
        self.counts.keys()
    }

    /// Counts one request under the cause this program sees.
    pub fn request(&mut self, request: &Request) {
        self.calls += 1;
        match request {
            Request::Values { .. } => self.count("values".to_string()),
            Request::Load(call) => loads::loaded(self, call),
            Request::Check(call) => self.checked(call),
            Request::Run(call) => runs::ran(self, call),
            Request::Text(input) => texts::read(self, input),
            Request::Assemble(call) => assembles::assembled(self, call),
            Request::Source(input) => assembles::printed(self, input),
        }
    }

    fn checked(&mut self, call: &Program) {
        match load::load(&call.table, &call.program, Lengths::of_load(call.room.len())) {
            Err(Refusal { number, place, cause }) if number == 2 => self.count(format!("02 {cause}, place {place}")),
            Err(Refusal { number, cause, .. }) => self.count(format!("{number:02} {cause}")),
            Ok((table, program)) => match check::check(&table, &program) {
                Some(clash) => clashes::refused(self, &table, &program, clash),
                None => passes::passed(self, &table, &program),
            },
        }
    }

    /// Percentages are of all calls; one call may count under several causes.
    pub fn print(&self) {
        println!("{} calls", self.calls);
        for (key, count) in &self.counts {
            println!("{count:>9}  {:>7.2}%  {key}", 100.0 * *count as f64 / self.calls.max(1) as f64);
        }
    }
}

/// The first limit a number does not exceed.
fn class(number: u64, limits: &[u64]) -> String {
    match limits.iter().position(|&limit| number <= limit) {
        None => format!("over {}", limits[limits.len() - 1]),
        Some(0) => format!("{}", limits[0]),
        Some(index) if limits[index] == limits[index - 1] + 1 => format!("{}", limits[index]),
        Some(index) => format!("up to {}", limits[index]),
    }
}
