//! The sweep, as document 01 words it, with the limit of 256 records on the swept form of every part.

use crate::terms::{abstraction, application, Term, Term::*};

pub const MOST_SWEPT_RECORDS: usize = 256;
/// Of the right side of a rewrite (document 02).
pub const MOST_SWEEPS: usize = 64;

/// The swept form; nothing if the swept form of some part is above `limit` records.
pub fn sweep(term: &Term, limit: usize) -> Option<Term> {
    let swept = match term {
        Abstraction(body) => {
            let body = sweep(body, limit)?;
            match &body {
                Application(head, argument) if **argument == Local(0) && !head.uses(0) && !head.is_abstraction() => {
                    head.move_out(1).expect("it doesn't use the local")
                }
                _ => abstraction(body),
            }
        }
        Application(head, argument) => {
            let head = sweep(head, limit)?;
            let argument = sweep(argument, limit)?;
            match &head {
                Abstraction(body) => body.put(&argument),
                _ => application(head, argument),
            }
        }
        leaf => leaf.clone(),
    };
    (swept.size() <= limit).then_some(swept)
}
