//! Terms as trees: the five kinds, moving locals, putting an argument for a local, and what "closed" and "normal" mean.

use std::rc::Rc;

/// Variables are numbered from 0 to one less than this.
pub const VARIABLES: usize = 8;

#[derive(Clone, PartialEq, Eq, Debug)]
pub enum Term {
    Application(Rc<Term>, Rc<Term>),
    Abstraction(Rc<Term>),
    /// The number of abstractions between it and its binder.
    Local(usize),
    /// Of 24 bits.
    Constant(u32),
    Variable(usize),
}

use Term::*;

pub fn application(head: Term, argument: Term) -> Term {
    Application(Rc::new(head), Rc::new(argument))
}

pub fn abstraction(body: Term) -> Term {
    Abstraction(Rc::new(body))
}

impl Term {
    pub fn is_abstraction(&self) -> bool {
        matches!(self, Abstraction(_))
    }

    /// How many records the term has.
    pub fn size(&self) -> usize {
        match self {
            Application(head, argument) => 1 + head.size() + argument.size(),
            Abstraction(body) => 1 + body.size(),
            _ => 1,
        }
    }

    /// Whether the term uses the local that is `number` seen from its root.
    pub fn uses(&self, number: usize) -> bool {
        match self {
            Application(head, argument) => head.uses(number) || argument.uses(number),
            Abstraction(body) => body.uses(number + 1),
            Local(n) => *n == number,
            _ => false,
        }
    }

    /// Whether each local that is not bound within the term is below `depth`, seen from its root.
    pub fn is_bound_within(&self, depth: usize) -> bool {
        match self {
            Application(head, argument) => head.is_bound_within(depth) && argument.is_bound_within(depth),
            Abstraction(body) => body.is_bound_within(depth + 1),
            Local(n) => *n < depth,
            _ => true,
        }
    }

    pub fn is_closed(&self) -> bool {
        self.is_bound_within(0)
    }

    pub fn occurs(&self, variable: usize) -> bool {
        match self {
            Application(head, argument) => head.occurs(variable) || argument.occurs(variable),
            Abstraction(body) => body.occurs(variable),
            Variable(v) => *v == variable,
            _ => false,
        }
    }

    pub fn has_variables(&self) -> bool {
        (0..VARIABLES).any(|variable| self.occurs(variable))
    }

    /// An application whose head is an abstraction, or an abstraction over `M #0` where M doesn't use that local.
    pub fn is_redex(&self) -> bool {
        match self {
            Application(head, _) => head.is_abstraction(),
            Abstraction(body) => match &**body {
                Application(head, argument) => **argument == Local(0) && !head.uses(0),
                _ => false,
            },
            _ => false,
        }
    }

    pub fn is_normal(&self) -> bool {
        !self.is_redex()
            && match self {
                Application(head, argument) => head.is_normal() && argument.is_normal(),
                Abstraction(body) => body.is_normal(),
                _ => true,
            }
    }

    /// Moves the term into `by` more binders: its loose locals from `from` up grow by that much.
    pub fn shift(&self, by: usize, from: usize) -> Term {
        match self {
            Application(head, argument) => application(head.shift(by, from), argument.shift(by, from)),
            Abstraction(body) => abstraction(body.shift(by, from + 1)),
            Local(n) if *n >= from => Local(n + by),
            other => other.clone(),
        }
    }

    /// Whether this term is `other` moved into `by` more binders.
    pub fn is_shift_of(&self, other: &Term, by: usize, from: usize) -> bool {
        match (self, other) {
            (Application(head, argument), Application(other_head, other_argument)) => {
                head.is_shift_of(other_head, by, from) && argument.is_shift_of(other_argument, by, from)
            }
            (Abstraction(body), Abstraction(other_body)) => body.is_shift_of(other_body, by, from + 1),
            (Local(n), Local(other_n)) => *n == if *other_n >= from { other_n + by } else { *other_n },
            _ => self == other,
        }
    }

    /// Moves the term out of the `by` binders around it; nothing if it uses one of them.
    pub fn move_out(&self, by: usize) -> Option<Term> {
        self.move_out_from(by, 0)
    }

    fn move_out_from(&self, by: usize, from: usize) -> Option<Term> {
        Some(match self {
            Application(head, argument) => application(head.move_out_from(by, from)?, argument.move_out_from(by, from)?),
            Abstraction(body) => abstraction(body.move_out_from(by, from + 1)?),
            Local(n) if *n >= from + by => Local(n - by),
            Local(n) if *n >= from => return None,
            other => other.clone(),
        })
    }

    /// Puts `argument` for local 0 of this body, without capture; the locals above it move down by one.
    pub fn put(&self, argument: &Term) -> Term {
        self.put_at(argument, 0)
    }

    fn put_at(&self, argument: &Term, depth: usize) -> Term {
        match self {
            Application(head, rest) => application(head.put_at(argument, depth), rest.put_at(argument, depth)),
            Abstraction(body) => abstraction(body.put_at(argument, depth + 1)),
            Local(n) if *n == depth => argument.shift(depth, 0),
            Local(n) if *n > depth => Local(n - 1),
            other => other.clone(),
        }
    }

    /// Puts the values for the variables; a variable without a value stays.
    pub fn fill(&self, values: &[Option<Term>; VARIABLES]) -> Term {
        match self {
            Application(head, argument) => application(head.fill(values), argument.fill(values)),
            Abstraction(body) => abstraction(body.fill(values)),
            Variable(v) => values[*v].clone().unwrap_or(Variable(*v)),
            other => other.clone(),
        }
    }

    /// The notation of document 01: `@`, `\`, `#n`, `kn`, `pn`.
    pub fn text(&self) -> String {
        match self {
            Application(head, argument) => format!("@ {} {}", head.text(), argument.text()),
            Abstraction(body) => format!("\\ {}", body.text()),
            Local(n) => format!("#{n}"),
            Constant(n) => format!("k{n}"),
            Variable(n) => format!("p{n}"),
        }
    }

    /// Reads the notation of document 01 (used for its cases).
    pub fn from_text(text: &str) -> Term {
        let mut words = text.split_whitespace();
        let term = Term::from_words(&mut words);
        assert!(words.next().is_none(), "words left over in {text}");
        term
    }

    fn from_words<'a>(words: &mut impl Iterator<Item = &'a str>) -> Term {
        let word = words.next().expect("a term ends early");
        let number = || word[1..].parse::<usize>().expect("a number");
        match word.as_bytes()[0] {
            b'@' => {
                let head = Term::from_words(words);
                application(head, Term::from_words(words))
            }
            b'\\' => abstraction(Term::from_words(words)),
            b'#' => Local(number()),
            b'k' => Constant(number().try_into().expect("a constant of 24 bits")),
            b'p' => Variable(number()),
            _ => panic!("no such kind: {word}"),
        }
    }
}
