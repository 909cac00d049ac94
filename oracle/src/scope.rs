//! Which names of a task are known where they stand, and whether KVars have as many arguments as sorts.
use crate::task::{Constraint, Expr, Function, Pred, Task};
use std::collections::{HashMap, HashSet};

/// Whether a task has a name that is not known, and whether it has a KVar with another number of arguments than sorts.
#[derive(Default)]
pub struct Found { pub unknown: bool, pub miscounted: bool }

/// `known` has for each name how many declarations and binders of that name hold here. `kvars` has the number of sorts of each KVar, by the
/// first declaration.
struct Scope<'a> { known: HashMap<&'a str, usize>, ctors: HashSet<&'a str>, kvars: HashMap<&'a str, usize>, found: Found }

impl<'a> Scope<'a> {
    /// Before the first function: constructors, fields and constants are known.
    fn new(task: &Task<'a>) -> Self {
        let ctors: HashSet<&str> = task.datatypes.iter().flat_map(|datatype| &datatype.ctors).map(|ctor| ctor.name).collect();
        let mut scope = Scope { known: HashMap::new(), ctors: ctors.clone(), kvars: HashMap::new(), found: Found::default() };
        for kvar in &task.kvars {
            scope.kvars.entry(kvar.name).or_insert(kvar.sorts.len());
        }
        let fields = task.datatypes.iter().flat_map(|datatype| &datatype.ctors).flat_map(|ctor| &ctor.fields);
        ctors.into_iter().chain(fields.chain(&task.constants).map(|(name, _)| *name)).for_each(|name| scope.enter(name));
        scope
    }

    fn enter(&mut self, name: &'a str) { *self.known.entry(name).or_default() += 1 }
    fn leave(&mut self, name: &'a str) { self.known.entry(name).and_modify(|holding| *holding -= 1); }

    fn exprs(&mut self, exprs: &[Expr<'a>]) { exprs.iter().for_each(|expr| self.expr(expr)) }

    fn expr(&mut self, expr: &Expr<'a>) {
        match expr {
            Expr::Numeral(_) | Expr::Boolean(_) | Expr::Real(_) | Expr::String(_) | Expr::BitVec(..) | Expr::WKVar | Expr::ThyFunc(..) => (),
            Expr::Var(name) => self.found.unknown |= self.known.get(name).is_none_or(|holding| *holding == 0),
            Expr::Neg(operand) | Expr::Not(operand) => self.expr(operand),
            Expr::BinaryOp(_, operands) | Expr::Atom(_, operands) | Expr::Imp(operands) | Expr::Iff(operands) => self.exprs(&operands[..]),
            Expr::And(members) | Expr::Or(members) => self.exprs(members),
            Expr::IfThenElse(operands) => self.exprs(&operands[..]),
            Expr::Let(name, operands) => {
                let [value, body] = &**operands;
                self.expr(value);
                self.enter(name);
                self.expr(body);
                self.leave(name);
            }
            Expr::App(head, args, _) => {
                self.expr(head);
                self.exprs(args);
            }
            Expr::IsCtor(name, operand) => {
                self.found.unknown |= !self.ctors.contains(name);
                self.expr(operand);
            }
            Expr::Quantifier(_, binders, body) => {
                binders.iter().for_each(|(name, _)| self.enter(name));
                self.expr(body);
                binders.iter().for_each(|(name, _)| self.leave(name));
            }
        }
    }

    fn pred(&mut self, pred: &Pred<'a>) {
        match pred {
            Pred::KVar(name, args) => {
                match self.kvars.get(name) {
                    Some(sorts) => self.found.miscounted |= *sorts != args.len(),
                    None => self.found.unknown = true,
                }
                self.exprs(args);
            }
            Pred::Expr(expr) => self.expr(expr),
        }
    }

    fn constraint(&mut self, constraint: &Constraint<'a>) {
        match constraint {
            Constraint::Pred(head) => self.pred(head),
            Constraint::Conj(members) => members.iter().for_each(|member| self.constraint(member)),
            Constraint::ForAll((name, _), preds, body) => {
                self.enter(name);
                preds.iter().for_each(|pred| self.pred(pred));
                self.constraint(body);
                self.leave(name);
            }
        }
    }

    /// A function's own name is known behind it.
    fn function(&mut self, function: &Function<'a>) {
        if let Some(body) = &function.body {
            body.args.iter().for_each(|name| self.enter(name));
            self.expr(&body.expr);
            body.args.iter().for_each(|name| self.leave(name));
        }
        self.enter(function.name);
    }
}

pub fn found(task: &Task) -> Found {
    let mut scope = Scope::new(task);
    task.functions.iter().for_each(|function| scope.function(function));
    scope.constraint(&task.constraint);
    scope.found
}
