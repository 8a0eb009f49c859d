//! The plain lister: the equations of one-step matching, one after the other, with all subsets of occurrences and no pruning.
//!
//! A goal is a part of the pattern and the target that its swept form must be. Taking a goal gives:
//!
//! - `#n`, `kn`: the target is the same record.
//! - `pi`: the target is closed and is the value of `pi`.
//! - `\ P`: the target is `\ T` and P goes with T; or the target T is no abstraction and P goes with `@ T #0`, T moved in.
//! - `@ F E`: (a) the target is `@ T0 T1`, F goes with T0 and E with T1; or
//!   (b) for some B that uses local 0 and some E' with B[E'] = T: F goes with `\ B` and E with E'; or
//!   (c) F goes with `\ T`, T moved in, and E may be anything.

use crate::terms::{abstraction, application, Term, Term::*, VARIABLES};

/// One line: a value, or open, for each variable.
pub type Line = [Option<Term>; VARIABLES];

#[derive(Clone)]
struct Goal {
    pattern: Term,
    target: Term,
}

struct Search {
    lines: Vec<Line>,
    steps_left: usize,
    /// Whether an application with a rigid head is split at once.
    is_cut: bool,
}

/// The lines in no particular order; nothing if they take more than `most_steps` steps (records of the targets taken or made).
pub fn list(pattern: &Term, recipe: &Term, most_steps: usize) -> Option<Vec<Line>> {
    search(pattern, recipe, most_steps, false)
}

/// The same lines, with one cut, for the many pairs of a book that no assignment matches: an application whose head is rigid goes with the head and the
/// argument of the target alone, the head first. (b) and (c) ask its head to sweep to an abstraction, which a constant or a local never does, whatever it
/// is applied to.
pub fn list_with_cut(pattern: &Term, recipe: &Term, most_steps: usize) -> Option<Vec<Line>> {
    search(pattern, recipe, most_steps, true)
}

fn search(pattern: &Term, recipe: &Term, most_steps: usize, is_cut: bool) -> Option<Vec<Line>> {
    let mut search = Search { lines: Vec::new(), steps_left: most_steps, is_cut };
    let first = Goal { pattern: pattern.clone(), target: recipe.clone() };
    search.solve(vec![first], Line::default())?;
    Some(search.lines)
}

/// Whether the term is a constant or a local, applied to any number of arguments.
fn is_rigid(term: &Term) -> bool {
    match term {
        Application(head, _) => is_rigid(head),
        Local(_) | Constant(_) => true,
        Abstraction(_) | Variable(_) => false,
    }
}

impl Search {
    /// Nothing if the steps run out.
    fn solve(&mut self, mut goals: Vec<Goal>, mut line: Line) -> Option<()> {
        let Some(Goal { pattern, target }) = goals.pop() else {
            self.lines.push(line);
            return Some(());
        };
        self.step(target.size())?;
        match pattern {
            Local(_) | Constant(_) => {
                if pattern == target {
                    self.solve(goals, line)?;
                }
            }
            Variable(variable) => match &line[variable] {
                Some(value) => {
                    if *value == target {
                        self.solve(goals, line)?;
                    }
                }
                None => {
                    if target.is_closed() {
                        line[variable] = Some(target);
                        self.solve(goals, line)?;
                    }
                }
            },
            Abstraction(body) => {
                let target = match target {
                    Abstraction(target) => (*target).clone(),
                    other => application(other.shift(1, 0), Local(0)),
                };
                goals.push(Goal { pattern: (*body).clone(), target });
                self.solve(goals, line)?;
            }
            Application(head, argument) if self.is_cut && is_rigid(&head) => {
                if let Application(target_head, target_argument) = &target {
                    goals.push(Goal { pattern: (*argument).clone(), target: (**target_argument).clone() });
                    goals.push(Goal { pattern: (*head).clone(), target: (**target_head).clone() });
                    self.solve(goals, line)?;
                }
            }
            Application(head, argument) => {
                if let Application(target_head, target_argument) = &target {
                    let mut goals = goals.clone();
                    goals.push(Goal { pattern: (*head).clone(), target: (**target_head).clone() });
                    goals.push(Goal { pattern: (*argument).clone(), target: (**target_argument).clone() });
                    self.solve(goals, line.clone())?;
                }
                for candidate in candidates(&target) {
                    for body in self.bodies(&target, &candidate, 0)? {
                        let function = abstraction(body.clone());
                        if body.uses(0) && !function.is_redex() {
                            let mut goals = goals.clone();
                            goals.push(Goal { pattern: (*head).clone(), target: function });
                            goals.push(Goal { pattern: (*argument).clone(), target: candidate.clone() });
                            self.solve(goals, line.clone())?;
                        }
                    }
                }
                goals.push(Goal { pattern: (*head).clone(), target: abstraction(target.shift(1, 0)) });
                self.solve(goals, line)?;
            }
        }
        Some(())
    }

    fn step(&mut self, steps: usize) -> Option<()> {
        self.steps_left = self.steps_left.checked_sub(steps)?;
        Some(())
    }

    /// All B with B[argument] = target, seen from within `depth` binders of the target: at each occurrence of the argument both choices.
    fn bodies(&mut self, target: &Term, argument: &Term, depth: usize) -> Option<Vec<Term>> {
        let mut bodies = Vec::new();
        if target.is_shift_of(argument, depth, 0) {
            bodies.push(Local(depth));
        }
        match target {
            Application(head, rest) => {
                let heads = self.bodies(head, argument, depth)?;
                let rests = self.bodies(rest, argument, depth)?;
                for head in &heads {
                    self.step(rests.len())?;
                    for rest in &rests {
                        bodies.push(application(head.clone(), rest.clone()));
                    }
                }
            }
            Abstraction(body) => bodies.extend(self.bodies(body, argument, depth + 1)?.into_iter().map(abstraction)),
            Local(n) if *n >= depth => bodies.push(Local(n + 1)),
            leaf => bodies.push(leaf.clone()),
        }
        self.step(1)?;
        Some(bodies)
    }
}

/// The different parts of the target that can be moved out of the binders above them.
fn candidates(target: &Term) -> Vec<Term> {
    let mut found = Vec::new();
    collect(target, 0, &mut found);
    found
}

fn collect(part: &Term, depth: usize, found: &mut Vec<Term>) {
    if let Some(moved) = part.move_out(depth) {
        if !found.contains(&moved) {
            found.push(moved);
        }
    }
    match part {
        Application(head, argument) => {
            collect(head, depth, found);
            collect(argument, depth, found);
        }
        Abstraction(body) => collect(body, depth + 1, found),
        _ => {}
    }
}
