//! Where the source's writer returns: it does not at its assertion and its panics, and it comes only to what it writes.
use crate::task::{Constraint, Expr, Function, Pred, Sort, SortCtor, Task, MAP_DEFAULT, SET_EMPTY};
use std::collections::HashSet;

/// The names that decide how a piece is written.
struct Declared<'a> { constructors: HashSet<&'a str>, datatypes: HashSet<&'a str> }

impl Declared<'_> {
    fn sorts<'s>(&self, sorts: impl IntoIterator<Item = &'s Sort<'s>>) -> bool { sorts.into_iter().all(|sort| self.sort(sort)) }
    fn exprs(&self, exprs: &[Expr]) -> bool { exprs.iter().all(|expr| self.expr(expr)) }

    fn sort(&self, sort: &Sort) -> bool {
        match sort {
            Sort::Int | Sort::Bool | Sort::Real | Sort::Str | Sort::Var(_) => true,
            Sort::BitVec(size) => matches!(**size, Sort::BvSize(_)),
            Sort::BvSize(_) => false,
            Sort::Func(sorts) => self.sorts(sorts.iter()),
            Sort::Abs(_, inner) => self.sort(inner),
            Sort::App(SortCtor::Data(name), _) if !self.datatypes.contains(name) => true,
            Sort::App(_, args) => self.sorts(args),
        }
    }

    fn expr(&self, expr: &Expr) -> bool {
        match expr {
            Expr::Numeral(_) | Expr::Boolean(_) | Expr::Real(_) | Expr::String(_) | Expr::BitVec(..) | Expr::Var(_) => true,
            Expr::WKVar => false,
            Expr::Neg(operand) | Expr::Not(operand) | Expr::IsCtor(_, operand) => self.expr(operand),
            Expr::BinaryOp(_, operands) | Expr::Atom(_, operands) | Expr::Imp(operands) | Expr::Iff(operands) | Expr::Let(_, operands) => {
                self.exprs(&operands[..])
            }
            Expr::And(members) | Expr::Or(members) => self.exprs(members),
            Expr::IfThenElse(operands) => self.exprs(&operands[..]),
            Expr::App(head, args, output) => self.head(head, output.as_ref()) && self.exprs(args),
            Expr::ThyFunc(function, _) => ![SET_EMPTY, MAP_DEFAULT].contains(function),
            Expr::Quantifier(_, binders, body) => self.sorts(binders.iter().map(|(_, sort)| sort)) && self.expr(body),
        }
    }

    /// A constructor is written with the output sort where there is one, the empty set and the constant array always.
    fn head(&self, head: &Expr, output: Option<&Sort>) -> bool {
        match (head, output) {
            (Expr::Var(name), Some(sort)) if self.constructors.contains(name) => self.sort(sort),
            (Expr::ThyFunc(SET_EMPTY | MAP_DEFAULT, _), output) => output.is_some_and(|sort| self.sort(sort)),
            (head, _) => self.expr(head),
        }
    }

    fn pred(&self, pred: &Pred) -> bool {
        match pred {
            Pred::KVar(_, args) => self.exprs(args),
            Pred::Expr(expr) => self.expr(expr),
        }
    }

    /// Of a function with a body only the inputs that have an argument name are written.
    fn function(&self, function: &Function) -> bool {
        let named = function.body.as_ref().map_or(usize::MAX, |body| body.args.len());
        self.sorts(function.inputs.iter().take(named)) && self.sort(&function.output) && function.body.iter().all(|body| self.expr(&body.expr))
    }

    /// A path is written with each head on it that is not literally true; `path` tells whether its binders and guards are.
    fn constraint(&self, constraint: &Constraint, path: bool) -> bool {
        match constraint {
            Constraint::Pred(head) => head.is_trivially_true() || (path && self.pred(head)),
            Constraint::Conj(members) => members.iter().all(|member| self.constraint(member, path)),
            Constraint::ForAll((_, sort), preds, body) => {
                let guards = preds.iter().filter(|pred| !pred.is_trivially_true()).all(|pred| self.pred(pred));
                self.constraint(body, path && self.sort(sort) && guards)
            }
        }
    }
}

/// Whether it returns for a task, refused or not.
pub fn returns(task: &Task) -> bool {
    let ctors = || task.datatypes.iter().flat_map(|datatype| &datatype.ctors);
    let declared = Declared {
        constructors: ctors().map(|ctor| ctor.name).collect(),
        datatypes: task.datatypes.iter().map(|datatype| datatype.name).collect(),
    };
    task.datatypes.iter().all(|datatype| !datatype.ctors.is_empty())
        && declared.sorts(ctors().flat_map(|ctor| &ctor.fields).map(|(_, sort)| sort))
        && declared.sorts(task.constants.iter().map(|(_, sort)| sort))
        && task.functions.iter().all(|function| declared.function(function))
        && declared.sorts(task.kvars.iter().flat_map(|kvar| &kvar.sorts))
        && declared.constraint(&task.constraint, true)
}
