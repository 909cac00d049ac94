//! When a tree holds and when its assertions do (W-208), in interpretations by chance.
use crate::chance::summed;
use crate::task::{Constraint, Expr, Pred, Sort, Task};
use crate::text::{clauses, Edition, HornClause, SmtEncoder};
use std::collections::{BTreeSet, HashMap};

/// A number by chance for these words, the same for the same words.
fn drawn<'w>(seed: u64, words: impl IntoIterator<Item = &'w [u8]>) -> u64 {
    let bytes = words.into_iter().flat_map(|word| word.len().to_le_bytes().into_iter().chain(word.iter().copied()));
    let sum = summed(seed, bytes);
    (sum ^ sum >> 29).wrapping_mul(0xbf58_476d_1ce4_e5b9) >> 32
}

/// The names free in an expression. A constructor that is tested for counts.
fn free<'a>(expr: &Expr<'a>, bound: &mut Vec<&'a str>, found: &mut BTreeSet<&'a str>) {
    match expr {
        Expr::Numeral(_) | Expr::Boolean(_) | Expr::Real(_) | Expr::String(_) | Expr::BitVec(..) | Expr::WKVar | Expr::ThyFunc(..) => (),
        Expr::Var(name) => found.extend(Some(*name).filter(|name| !bound.contains(name))),
        Expr::Neg(operand) | Expr::Not(operand) => free(operand, bound, found),
        Expr::BinaryOp(_, operands) | Expr::Atom(_, operands) | Expr::Imp(operands) | Expr::Iff(operands) => all_free(&operands[..], bound, found),
        Expr::And(members) | Expr::Or(members) => all_free(members, bound, found),
        Expr::IfThenElse(operands) => all_free(&operands[..], bound, found),
        Expr::Let(name, operands) => {
            free(&operands[0], bound, found);
            within(&[*name], &operands[1], bound, found);
        }
        Expr::App(head, args, _) => {
            free(head, bound, found);
            all_free(args, bound, found);
        }
        Expr::IsCtor(name, operand) => {
            found.insert(name);
            free(operand, bound, found);
        }
        Expr::Quantifier(_, binders, body) => within(&binders.iter().map(|binder| binder.0).collect::<Vec<_>>(), body, bound, found),
    }
}

fn all_free<'a>(exprs: &[Expr<'a>], bound: &mut Vec<&'a str>, found: &mut BTreeSet<&'a str>) {
    exprs.iter().for_each(|expr| free(expr, bound, found))
}

/// Those free in an expression in which these names are bound.
fn within<'a>(names: &[&'a str], expr: &Expr<'a>, bound: &mut Vec<&'a str>, found: &mut BTreeSet<&'a str>) {
    let before = bound.len();
    bound.extend(names);
    free(expr, bound, found);
    bound.truncate(before);
}

/// The names free in a predicate: a KVar's own is one.
fn free_in<'a>(pred: &Pred<'a>) -> BTreeSet<&'a str> {
    let mut found = BTreeSet::new();
    match pred {
        Pred::KVar(name, args) => {
            found.insert(*name);
            all_free(args, &mut Vec::new(), &mut found);
        }
        Pred::Expr(expr) => free(expr, &mut Vec::new(), &mut found),
    }
    found
}

/// Whether a name free in a predicate of a ForAll is the binder of a ForAll inside that one.
pub fn captures(constraint: &Constraint) -> bool {
    match constraint {
        Constraint::Pred(_) => false,
        Constraint::Conj(members) => members.iter().any(captures),
        Constraint::ForAll(_, preds, body) => captures(body) || preds.iter().any(|pred| binds(body, &free_in(pred))),
    }
}

/// Whether a ForAll in a constraint has one of these names.
fn binds(constraint: &Constraint, names: &BTreeSet<&str>) -> bool {
    match constraint {
        Constraint::Pred(_) => false,
        Constraint::Conj(members) => members.iter().any(|member| binds(member, names)),
        Constraint::ForAll((name, _), _, body) => names.contains(name) || binds(body, names),
    }
}

/// What an interpretation by chance is drawn from: a seed; sorts have fewer values than `values`; one in `odds` predicates is false, if it is at least 2.
#[derive(Clone, Copy)]
pub struct Draw { pub seed: u64, pub values: u64, pub odds: u64 }

/// The values that names were set to, the last one counts.
type Assigned<'a> = Vec<(&'a str, u64)>;

/// A task in such an interpretation. The text of each predicate with the names free in it is known by where it stands.
pub struct Meaning<'t, 'a> {
    task: &'t Task<'a>, encoder: SmtEncoder<'a>, clauses: Vec<HornClause<'t, 'a>>, preds: HashMap<*const Pred<'a>, (String, BTreeSet<&'a str>)>, draw: Draw,
}

impl<'t, 'a> Meaning<'t, 'a> {
    /// Of a task that has a text.
    pub fn new(task: &'t Task<'a>) -> Self {
        let (encoder, draw) = (SmtEncoder::new(&task.datatypes, Edition::Z3), Draw { seed: 0, values: 1, odds: 2 });
        let mut meaning = Meaning { task, encoder, clauses: clauses(&task.constraint), preds: HashMap::new(), draw };
        meaning.note(&task.constraint);
        meaning
    }

    fn note(&mut self, constraint: &'t Constraint<'a>) {
        match constraint {
            Constraint::Pred(pred) => self.note_pred(pred),
            Constraint::Conj(members) => members.iter().for_each(|member| self.note(member)),
            Constraint::ForAll(_, preds, body) => {
                preds.iter().for_each(|pred| self.note_pred(pred));
                self.note(body);
            }
        }
    }

    fn note_pred(&mut self, pred: &'t Pred<'a>) {
        let mut text = String::new();
        self.encoder.write_pred(&mut text, pred);
        self.preds.insert(pred, (text, free_in(pred)));
    }

    /// The values of a sort, by its text: there may be none.
    fn values(&self, binder: &(&str, Sort)) -> std::ops::Range<u64> {
        let mut text = String::new();
        self.encoder.write_sort(&mut text, &binder.1);
        0..drawn(self.draw.seed, [b"sort", text.as_bytes()]) % self.draw.values
    }

    /// The value of a name; to begin with some names have one.
    fn value(&self, name: &str, assigned: &Assigned) -> Option<u64> {
        let first = drawn(self.draw.seed, [b"name", name.as_bytes()]) % (self.draw.values + 1);
        assigned.iter().rev().find(|(other, _)| *other == name).map_or(first.checked_sub(1), |(_, value)| Some(*value))
    }

    /// The truth of a predicate, by its text and the values of the names free in it; Boolean true is true.
    fn truth(&self, pred: &Pred<'a>, assigned: &Assigned) -> bool {
        let (text, free) = &self.preds[&(pred as *const Pred)];
        let values: Vec<[u8; 8]> = free.iter().map(|name| self.value(name, assigned).map_or(0, |value| value + 1).to_le_bytes()).collect();
        let words = [&b"pred"[..], text.as_bytes()].into_iter().chain(values.iter().map(|value| &value[..]));
        matches!(pred, Pred::Expr(Expr::Boolean(true))) || drawn(self.draw.seed, words) % self.draw.odds > 0
    }

    /// A ForAll holds if for each value of its sort its predicates, where the binder has that value, imply its body.
    fn tree(&self, constraint: &Constraint<'a>, assigned: &mut Assigned<'a>) -> bool {
        match constraint {
            Constraint::Pred(pred) => self.truth(pred, assigned),
            Constraint::Conj(members) => members.iter().all(|member| self.tree(member, assigned)),
            Constraint::ForAll(binder, preds, body) => self.values(binder).all(|value| {
                assigned.push((binder.0, value));
                let holds = !preds.iter().all(|pred| self.truth(pred, assigned)) || self.tree(body, assigned);
                assigned.pop();
                holds
            }),
        }
    }

    /// An assertion, from its binders on: the guards imply a KVar head, and with the opposite of an expression head they imply false.
    fn assertion(&self, clause: &HornClause<'t, 'a>, at: usize, assigned: &mut Assigned<'a>) -> bool {
        let Some(binder) = clause.vars.get(at) else {
            let guarded = clause.guards.iter().all(|guard| self.truth(guard, assigned));
            return match clause.head {
                Pred::KVar(..) => !guarded || self.truth(clause.head, assigned),
                Pred::Expr(_) => !(guarded && !self.truth(clause.head, assigned)),
            };
        };
        self.values(binder).all(|value| {
            assigned.push((binder.0, value));
            let holds = self.assertion(clause, at + 1, assigned);
            assigned.pop();
            holds
        })
    }

    /// Whether the tree holds in the interpretation, and whether all assertions do.
    pub fn holds(&mut self, draw: Draw) -> (bool, bool) {
        self.draw = draw;
        let assertions = self.clauses.iter().all(|clause| self.assertion(clause, 0, &mut Vec::new()));
        (self.tree(&self.task.constraint, &mut Vec::new()), assertions)
    }

    /// At most so many heads and predicates are judged, for the tree and for the assertions, if each sort has `values` values.
    pub fn work(&self, values: f64) -> f64 {
        let assertions = self.clauses.iter().map(|clause| values.powi(clause.vars.len() as i32) * (clause.guards.len() + 1) as f64);
        assertions.sum::<f64>() + in_tree(&self.task.constraint, values)
    }
}

fn in_tree(constraint: &Constraint, values: f64) -> f64 {
    match constraint {
        Constraint::Pred(_) => 1.0,
        Constraint::Conj(members) => 1.0 + members.iter().map(|member| in_tree(member, values)).sum::<f64>(),
        Constraint::ForAll(_, preds, body) => values * (preds.len() as f64 + in_tree(body, values)),
    }
}
