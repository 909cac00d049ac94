//! The expressions of a task, the strings that it has, and those that a reader finds in a script.
use crate::task::{Constraint, Expr, Pred, Task};
use std::slice::from_ref;

/// All strings of a task, in the order of the file; those that are not written too.
pub fn strings<'a>(task: &Task<'a>) -> Vec<&'a str> {
    let mut found = Vec::new();
    let mut visit = |expr: &Expr<'a>| if let Expr::String(text) = expr { found.push(*text) };
    task.functions.iter().filter_map(|function| function.body.as_ref()).for_each(|body| in_exprs(from_ref(&body.expr), &mut visit));
    in_constraint(&task.constraint, &mut visit);
    found
}

/// Visits expressions and all that they are made of.
pub fn in_exprs<'a>(exprs: &[Expr<'a>], visit: &mut impl FnMut(&Expr<'a>)) {
    for expr in exprs {
        visit(expr);
        match expr {
            Expr::Numeral(_) | Expr::Boolean(_) | Expr::Real(_) | Expr::String(_) | Expr::BitVec(..) | Expr::Var(_) | Expr::WKVar | Expr::ThyFunc(..) => (),
            Expr::Neg(operand) | Expr::Not(operand) | Expr::IsCtor(_, operand) | Expr::Quantifier(_, _, operand) => {
                in_exprs(from_ref(&**operand), visit)
            }
            Expr::BinaryOp(_, operands) | Expr::Atom(_, operands) | Expr::Imp(operands) | Expr::Iff(operands) | Expr::Let(_, operands) => {
                in_exprs(&operands[..], visit)
            }
            Expr::And(members) | Expr::Or(members) => in_exprs(members, visit),
            Expr::IfThenElse(operands) => in_exprs(&operands[..], visit),
            Expr::App(head, args, _) => {
                in_exprs(from_ref(&**head), visit);
                in_exprs(args, visit);
            }
        }
    }
}

pub fn in_pred<'a>(pred: &Pred<'a>, visit: &mut impl FnMut(&Expr<'a>)) {
    match pred {
        Pred::KVar(_, args) => in_exprs(args, visit),
        Pred::Expr(expr) => in_exprs(from_ref(expr), visit),
    }
}

fn in_constraint<'a>(constraint: &Constraint<'a>, visit: &mut impl FnMut(&Expr<'a>)) {
    match constraint {
        Constraint::Pred(head) => in_pred(head, visit),
        Constraint::Conj(members) => members.iter().for_each(|member| in_constraint(member, visit)),
        Constraint::ForAll(_, preds, body) => {
            preds.iter().for_each(|pred| in_pred(pred, visit));
            in_constraint(body, visit);
        }
    }
}

/// What a reader finds in a text, who knows comments and strings only: the contents of its strings, and the text with each quotation mark
/// that is doubled in a string written once.
#[derive(Default)]
pub struct Found { pub strings: Vec<String>, pub once: String }

/// A quotation mark outside comments opens a string. In it two stand for one, and one alone ends it.
pub fn read(text: &str) -> Found {
    let (mut found, mut open, mut comment, mut rest) = (Found::default(), None, false, text.chars().peekable());
    while let Some(c) = rest.next() {
        found.once.push(c);
        match &mut open {
            Some(string) if c != '"' => String::push(string, c),
            Some(string) if rest.next_if_eq(&'"').is_some() => string.push('"'),
            Some(_) => found.strings.extend(open.take()),
            None => {
                comment = if comment { c != '\n' } else { c == ';' };
                open = (c == '"' && !comment).then(String::new);
            }
        }
    }
    assert!(open.is_none(), "a string that is not closed");
    found
}
