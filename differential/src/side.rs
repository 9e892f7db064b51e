//! One of the two implementations that are compared, and what a call gives.

use crate::call::Call;
use crate::case::Start;
use lunozhar::raw::{Asked, Fed, Finding, Group, Hosts, Made, NameFound, Station, Tally, Told, Written};

/// The areas that are lent to a call: for output, the route area, of a call that brings bytes the held area of its line, and the area of
/// names.
pub struct Lent<'a> {
    pub out: &'a mut [u8],
    pub route: &'a mut [u8],
    pub held: &'a mut [u8],
    pub names: &'a mut [u8],
}

/// An implementation with a state and a tally of its own.
pub trait Side {
    fn begin(start: &Start) -> Self;
    /// Does a call with these areas.
    fn run(&mut self, call: &Call, lent: Lent<'_>) -> Outcome;
    fn station(&self) -> Station;
    fn tally(&self) -> Tally;
}

/// What a call gives back by value.
#[derive(Clone, Debug, PartialEq, Eq)]
pub enum Outcome {
    Nothing,
    Answer(u8),
    Flag(bool),
    Number(u32),
    Told(Told),
    Fed(Fed),
    Finding(Finding),
    Place(NameFound),
    Made(Made),
    Written(Written),
    Group(Group),
    Asked(Asked),
    Hosts(Box<Hosts>),
    /// The implementation panicked.
    Panicked(String),
}

impl Outcome {
    /// The answer number, of a call that gives one.
    pub fn answer(&self) -> Option<u8> {
        match self {
            Outcome::Answer(answer) => Some(*answer),
            Outcome::Told(told) | Outcome::Fed(Fed { told, .. }) => Some(told.answer),
            Outcome::Finding(finding) => Some(finding.answer),
            Outcome::Place(found) => Some(found.answer),
            Outcome::Made(made) => Some(made.answer),
            Outcome::Written(written) => Some(written.answer),
            Outcome::Group(group) => Some(group.answer),
            Outcome::Asked(asked) => Some(asked.answer),
            Outcome::Hosts(hosts) => Some(hosts.answer),
            _ => None,
        }
    }

    /// Whether a message, bytes or an own query handed up an age.
    pub fn has_age(&self) -> bool {
        match self {
            Outcome::Told(told) | Outcome::Fed(Fed { told, .. }) => told.age.known,
            _ => false,
        }
    }

    /// Every field by name.
    pub fn fields(&self) -> Vec<(&'static str, String)> {
        macro_rules! named {
            ($of:expr; $($field:ident)*) => { vec![$((stringify!($field), format!("{:?}", $of.$field))),*] };
        }
        match self {
            Outcome::Told(told) => named!(told; answer used written to search delivered textat textlen age),
            Outcome::Fed(fed) => {
                let mut fields = named!(fed.told; answer used written to search delivered textat textlen age);
                fields.extend(named!(fed; within waits));
                fields
            }
            Outcome::Finding(finding) => named!(finding; answer asker after),
            Outcome::Place(found) => named!(found; answer place),
            Outcome::Made(made) => named!(made; answer infinity),
            Outcome::Written(written) => named!(written; answer written),
            Outcome::Group(group) => named!(group; answer used kind major minor code),
            Outcome::Asked(asked) => named!(asked; answer used written),
            Outcome::Hosts(hosts) => {
                let mut fields = named!(hosts; answer used);
                fields.extend(named!(hosts.pairs; count pairs));
                fields
            }
            plain => vec![("result", format!("{plain:?}"))],
        }
    }
}
