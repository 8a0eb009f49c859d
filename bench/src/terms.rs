//! Terms as rows of records in prefix order, and document 01's sweep, written plainly.
//!
//! A record is one `u32`: its four bytes, high byte first. So comparing two records as numbers is comparing them by bytes.
//! A part is named by the place where it starts; `end` finds the place behind it.

pub type Record = u32;

pub const APPLICATION: u32 = 0;
pub const ABSTRACTION: u32 = 1;
pub const LOCAL: u32 = 2;
pub const CONSTANT: u32 = 3;
pub const VARIABLE: u32 = 4;

/// The number of variables that a pattern may use.
pub const VARIABLES: usize = 8;
/// The most records of a pattern.
pub const PATTERN_RECORDS: usize = 32;
/// The most records of a recipe.
pub const RECIPE_RECORDS: usize = 96;

pub fn record(kind: u32, number: u32) -> Record {
    kind << 24 | number
}

pub fn kind(record: Record) -> u32 {
    record >> 24
}

/// The three bytes behind the kind. The first of them is the top byte of a constant, and zero in every other kind.
pub fn number(record: Record) -> u32 {
    record & 0xff_ffff
}

pub fn records_of(bytes: &[u8]) -> Vec<Record> {
    bytes.chunks_exact(4).map(|four| u32::from_be_bytes([four[0], four[1], four[2], four[3]])).collect()
}

pub fn bytes_of(records: &[Record]) -> Vec<u8> {
    records.iter().flat_map(|record| record.to_be_bytes()).collect()
}

/// Reads document 01's notation: `@`, `\`, `#n`, `kn`, `pn`, with spaces between.
pub fn parse(text: &str) -> Vec<Record> {
    text.split_whitespace()
        .map(|word| {
            let numbered = |kind| record(kind, word[1..].parse().expect("a number behind the letter"));
            match word.as_bytes()[0] {
                b'@' => record(APPLICATION, 0),
                b'\\' => record(ABSTRACTION, 0),
                b'#' => numbered(LOCAL),
                b'k' => numbered(CONSTANT),
                b'p' => numbered(VARIABLE),
                _ => panic!("no record is written {word}"),
            }
        })
        .collect()
}

/// Writes document 01's notation.
pub fn text(term: &[Record]) -> String {
    let word = |&record: &Record| match kind(record) {
        APPLICATION => "@".to_string(),
        ABSTRACTION => "\\".to_string(),
        LOCAL => format!("#{}", number(record)),
        CONSTANT => format!("k{}", number(record)),
        _ => format!("p{}", number(record)),
    };
    term.iter().map(word).collect::<Vec<String>>().join(" ")
}

/// The place behind the part that starts at `at`.
pub fn end(term: &[Record], at: usize) -> usize {
    let mut open = 1;
    let mut place = at;
    while open > 0 {
        match kind(term[place]) {
            APPLICATION => open += 1,
            ABSTRACTION => {}
            _ => open -= 1,
        }
        place += 1;
    }
    place
}

/// The loose locals of a part, as a set of bits: bit n for local n seen from outside the part.
/// A matching target's loose locals are binders of the pattern, so their numbers stay below the pattern's records.
pub fn loose_locals(part: &[Record]) -> u64 {
    let mut set = 0;
    note_locals(part, 0, 0, &mut set);
    set
}

fn note_locals(part: &[Record], at: usize, depth: u32, set: &mut u64) -> usize {
    match kind(part[at]) {
        APPLICATION => {
            let argument = note_locals(part, at + 1, depth, set);
            note_locals(part, argument, depth, set)
        }
        ABSTRACTION => note_locals(part, at + 1, depth + 1, set),
        LOCAL => {
            let n = number(part[at]);
            if n >= depth {
                *set |= 1 << (n - depth);
            }
            at + 1
        }
        _ => at + 1,
    }
}

/// Moves every loose local of the part at `at` up by `up`, in place; gives the place behind the part.
pub fn raise(term: &mut [Record], at: usize, depth: u32, up: u32) -> usize {
    match kind(term[at]) {
        APPLICATION => {
            let argument = raise(term, at + 1, depth, up);
            raise(term, argument, depth, up)
        }
        ABSTRACTION => raise(term, at + 1, depth + 1, up),
        LOCAL => {
            if number(term[at]) >= depth {
                term[at] += up;
            }
            at + 1
        }
        _ => at + 1,
    }
}

/// Moves every loose local of the part at `at` down by `down`, in place; gives the place behind the part, or nothing
/// if the part uses one of the `down` binders that it is moved out of.
pub fn lower(term: &mut [Record], at: usize, depth: u32, down: u32) -> Option<usize> {
    match kind(term[at]) {
        APPLICATION => {
            let argument = lower(term, at + 1, depth, down)?;
            lower(term, argument, depth, down)
        }
        ABSTRACTION => lower(term, at + 1, depth + 1, down),
        LOCAL => {
            if number(term[at]) >= depth {
                if number(term[at]) < depth + down {
                    return None;
                }
                term[at] -= down;
            }
            Some(at + 1)
        }
        _ => Some(at + 1),
    }
}

/// The values of the variables; an open one has none.
pub type Values<'a> = [Option<&'a [Record]>; VARIABLES];

/// The swept form of a filled pattern, as document 01 defines it. Every variable that occurs must have a value.
pub fn sweep(pattern: &[Record], values: &Values) -> Vec<Record> {
    let mut out = Vec::with_capacity(256);
    sweep_part(pattern, 0, values, &mut out);
    out
}

/// Appends the swept form of the part at `at`; gives the place behind the part.
fn sweep_part(pattern: &[Record], at: usize, values: &Values, out: &mut Vec<Record>) -> usize {
    let start = out.len();
    match kind(pattern[at]) {
        APPLICATION => {
            out.push(pattern[at]);
            let argument = sweep_part(pattern, at + 1, values, out);
            let swept_argument = out.len();
            let next = sweep_part(pattern, argument, values, out);
            if kind(out[start + 1]) == ABSTRACTION {
                let mut result = Vec::with_capacity(256);
                substitute(&out[start + 2..swept_argument], 0, 0, &out[swept_argument..], &mut result);
                out.truncate(start);
                out.extend_from_slice(&result);
            }
            next
        }
        ABSTRACTION => {
            out.push(pattern[at]);
            let next = sweep_part(pattern, at + 1, values, out);
            if let Some(function) = eta_reduct(&out[start + 1..]) {
                out.truncate(start);
                out.extend_from_slice(&function);
            }
            next
        }
        VARIABLE => {
            out.extend_from_slice(values[number(pattern[at]) as usize].expect("a value for each variable"));
            at + 1
        }
        _ => {
            out.push(pattern[at]);
            at + 1
        }
    }
}

/// Whether no part of the term is a redex.
pub fn is_normal(term: &[Record]) -> bool {
    (0..term.len()).all(|at| match kind(term[at]) {
        APPLICATION => kind(term[at + 1]) != ABSTRACTION,
        ABSTRACTION => eta_reduct(&term[at + 1..end(term, at)]).is_none(),
        _ => true,
    })
}

/// If the body is `M #0`, M doesn't use that local and M is no abstraction: M, moved out.
fn eta_reduct(body: &[Record]) -> Option<Vec<Record>> {
    if kind(body[0]) != APPLICATION || kind(body[1]) == ABSTRACTION || body[end(body, 1)..] != [record(LOCAL, 0)] {
        return None;
    }
    let mut function = body[1..body.len() - 1].to_vec();
    lower(&mut function, 0, 0, 1)?;
    Some(function)
}

/// Appends the part at `at` of a body with `argument` put for the body's own local; gives the place behind the part.
fn substitute(body: &[Record], at: usize, depth: u32, argument: &[Record], out: &mut Vec<Record>) -> usize {
    match kind(body[at]) {
        APPLICATION => {
            out.push(body[at]);
            let next = substitute(body, at + 1, depth, argument, out);
            substitute(body, next, depth, argument, out)
        }
        ABSTRACTION => {
            out.push(body[at]);
            substitute(body, at + 1, depth + 1, argument, out)
        }
        LOCAL if number(body[at]) == depth => {
            let start = out.len();
            out.extend_from_slice(argument);
            raise(out, start, 0, depth);
            at + 1
        }
        LOCAL if number(body[at]) > depth => {
            out.push(body[at] - 1);
            at + 1
        }
        _ => {
            out.push(body[at]);
            at + 1
        }
    }
}
