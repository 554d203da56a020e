//! Generated calls. Each request has its own random numbers, from the seed and its index.

pub mod accesses;
pub mod assembles;
pub mod breaks;
pub mod build;
pub mod checks;
pub mod draft;
pub mod loads;
pub mod notation;
pub mod pairs;
pub mod random;
pub mod runs;
pub mod schedule;
pub mod singles;
pub mod sources;
pub mod states;
pub mod tables;
pub mod texts;

use crate::requests::Request;
use random::Random;

#[derive(Clone, Copy, Debug, PartialEq, Eq)]
pub enum Kind {
    Values,
    Load,
    Check,
    Run,
    Text,
    Assemble,
    Source,
}

impl Kind {
    pub fn named(name: &str) -> Option<Kind> {
        match name {
            "values" => Some(Kind::Values),
            "load" => Some(Kind::Load),
            "check" => Some(Kind::Check),
            "run" => Some(Kind::Run),
            "text" => Some(Kind::Text),
            "assemble" => Some(Kind::Assemble),
            "source" => Some(Kind::Source),
            _ => None,
        }
    }

    /// How many requests come first, the same for every seed.
    pub fn fixed(self) -> u64 {
        match self {
            Kind::Values => pairs::EDGE_PAIRS,
            Kind::Load => singles::LOADS,
            Kind::Check => singles::CHECKS,
            Kind::Run => singles::RUNS,
            Kind::Assemble => assembles::fixed(),
            Kind::Text | Kind::Source => 0,
        }
    }

    pub fn request(self, seed: u64, index: u64) -> Request {
        let mut random = Random::new(seed, index);
        let fixed = index < self.fixed();
        match self {
            Kind::Values if fixed => pairs::edge_pair(&mut random, index),
            Kind::Values => pairs::pair(&mut random),
            Kind::Load if fixed => Request::Load(singles::load(index)),
            Kind::Load => Request::Load(loads::call(&mut random)),
            Kind::Check if fixed => Request::Check(singles::check(index)),
            Kind::Check => Request::Check(checks::call(&mut random)),
            Kind::Run if fixed => Request::Run(singles::run(index)),
            Kind::Run => Request::Run(runs::call(&mut random)),
            Kind::Text => Request::Text(texts::input(&mut random)),
            Kind::Assemble if fixed => Request::Assemble(assembles::fixed_call(index)),
            Kind::Assemble => Request::Assemble(assembles::call(&mut random)),
            Kind::Source => Request::Source(sources::input(&mut random)),
        }
    }
}
