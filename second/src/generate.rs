//! Makes traces from a seed. Steps are chosen while the state is carried on,
//! so that they reach full queues, held buffers and claims, not only refusals.

pub mod boards;
pub mod boundary;
pub mod broken;
pub mod calls;
pub mod corpus;
pub mod hidden;
pub mod long;
pub mod script;
pub mod spoil;
pub mod subscribes;
pub mod tables;
pub mod walk;

use crate::random::Random;

/// What a trace is made for.
#[derive(Clone, Copy, Debug, PartialEq, Eq)]
pub enum Kind {
    /// Long runs into deep states.
    Walk,
    /// Dense values at and next to every edge.
    Boundary,
    /// A good trace with one damage.
    Broken,
    /// Boards that are not good, and good ones at the limits.
    Board,
    /// Around the most bytes that are taken.
    Long,
}

impl Kind {
    pub const ALL: [Kind; 5] = [Kind::Walk, Kind::Boundary, Kind::Broken, Kind::Board, Kind::Long];

    pub fn name(self) -> &'static str {
        match self {
            Kind::Walk => "walk",
            Kind::Boundary => "boundary",
            Kind::Broken => "broken",
            Kind::Board => "board",
            Kind::Long => "long",
        }
    }

    pub fn from_name(name: &str) -> Option<Kind> {
        Kind::ALL.into_iter().find(|kind| kind.name() == name)
    }

    /// The kind of trace `index` in a directory of mixed kinds.
    pub fn of_index(index: u64) -> Kind {
        match index % 20 {
            0..=6 => Kind::Walk,
            7..=10 => Kind::Boundary,
            11..=14 => Kind::Broken,
            15..=18 => Kind::Board,
            _ => Kind::Long,
        }
    }
}

/// Trace `index` of a kind: the same bytes for the same inputs.
pub fn generate(seed: u64, kind: Kind, index: u64) -> Vec<u8> {
    let mut random = Random::new(&[seed, kind as u64, index]);
    match kind {
        Kind::Walk => walk::walk(random),
        Kind::Boundary => boundary::boundary(random),
        Kind::Broken => broken::broken(&mut random, index),
        Kind::Board => spoil::board_trace(&mut random, index),
        Kind::Long => long::long(&mut random),
    }
}

/// Walk `index` at the limits: the same bytes for the same inputs. It is of no
/// kind of its own, so that the traces of the kinds stay what they are.
pub fn generate_at_limits(seed: u64, index: u64) -> Vec<u8> {
    walk::walk_at_limits(Random::new(&[seed, Kind::ALL.len() as u64, index]))
}

/// Trace `index` of a directory of mixed kinds.
pub fn generate_mixed(seed: u64, index: u64) -> Vec<u8> {
    generate(seed, Kind::of_index(index), index)
}
