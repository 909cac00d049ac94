//! From the rendering's tree to the source's.
use crate::types::*;
use oracle::task;
use std::fmt::Display;
use std::marker::PhantomData;
use ThyFunc::*;

/// Names are `&str` and written raw, a Real is a number, a string stands between two quotation marks.
pub struct Names<'a>(PhantomData<&'a str>);

pub struct Quoted<'a>(&'a str);

impl<'a> Types for Names<'a> {
    type Sort = &'a str;
    type KVar = &'a str;
    type Var = &'a str;
    type String = Quoted<'a>;
    type Real = u32;
}

impl Identifier for &str {
    fn display(&self) -> impl Display { *self }
}

impl FixpointFmt for Quoted<'_> {
    fn display(&self) -> impl Display { format!("\"{}\"", self.0) }
}

impl FixpointFmt for u32 {
    fn display(&self) -> impl Display { *self }
}

const OPERATIONS: [BinOp; 5] = [BinOp::Add, BinOp::Sub, BinOp::Mul, BinOp::Div, BinOp::Mod];
const RELATIONS: [BinRel; 6] = [BinRel::Eq, BinRel::Ne, BinRel::Gt, BinRel::Ge, BinRel::Lt, BinRel::Le];
const QUANTIFIERS: [Quantifier; 2] = [Quantifier::Exists, Quantifier::Forall];

/// In the source's order of declaration; the two extends get their widths from the tree.
const THEORY: [ThyFunc; 48] = [
    StrLen, StrConcat, StrPrefixOf, StrSuffixOf, StrContains, BvZeroExtend(0), BvSignExtend(0), IntToBv8, Bv8ToInt, IntToBv32, Bv32ToInt,
    IntToBv64, Bv64ToInt, IntToBv128, Bv128ToInt, BvUle, BvSle, BvUge, BvSge, BvUdiv, BvSdiv, BvSrem, BvUrem, BvLshr, BvAshr, BvAnd, BvOr,
    BvXor, BvNot, BvAdd, BvNeg, BvSub, BvMul, BvShl, BvUgt, BvSgt, BvUlt, BvSlt, SetEmpty, SetSng, SetCup, SetCap, SetDif, SetSub, SetMem,
    MapDefault, MapSelect, MapStore,
];

fn all<A, B>(items: Vec<A>, one: impl Fn(A) -> B) -> Vec<B> { items.into_iter().map(one).collect() }
fn each<A, B, const N: usize>(items: Box<[A; N]>, one: impl Fn(A) -> B) -> Box<[B; N]> { Box::new((*items).map(one)) }
fn boxed<A, B>(item: Box<A>, one: impl Fn(A) -> B) -> Box<B> { Box::new(one(*item)) }

fn sort<'a>(from: task::Sort<'a>) -> Sort<Names<'a>> {
    match from {
        task::Sort::Int => Sort::Int,
        task::Sort::Bool => Sort::Bool,
        task::Sort::Real => Sort::Real,
        task::Sort::Str => Sort::Str,
        task::Sort::BitVec(size) => Sort::BitVec(boxed(size, sort)),
        task::Sort::BvSize(size) => Sort::BvSize(size),
        task::Sort::Var(i) => Sort::Var(i.into()),
        task::Sort::Func(sorts) => Sort::Func(each(sorts, sort)),
        task::Sort::Abs(_, inner) => Sort::Abs((), boxed(inner, sort)),
        task::Sort::App(ctor, args) => {
            let ctor = match ctor {
                task::SortCtor::Set => SortCtor::Set,
                task::SortCtor::Map => SortCtor::Map,
                task::SortCtor::Data(name) => SortCtor::Data(name),
            };
            Sort::App(ctor, all(args, sort))
        }
    }
}

fn binder<'a>((name, from): task::Binder<'a>) -> (&'a str, Sort<Names<'a>>) { (name, sort(from)) }

fn theory(function: usize, width: u8) -> ThyFunc {
    match THEORY[function] {
        BvZeroExtend(_) => BvZeroExtend(width),
        BvSignExtend(_) => BvSignExtend(width),
        function => function,
    }
}

fn expr<'a>(from: task::Expr<'a>) -> Expr<Names<'a>> {
    match from {
        task::Expr::Numeral(value) => Expr::Constant(Constant::Numeral(value)),
        task::Expr::Boolean(value) => Expr::Constant(Constant::Boolean(value)),
        task::Expr::Real(value) => Expr::Constant(Constant::Real(value)),
        task::Expr::String(text) => Expr::Constant(Constant::String(Quoted(text))),
        task::Expr::BitVec(value, width) => Expr::Constant(Constant::BitVec(value, width)),
        task::Expr::Var(name) => Expr::Var(name),
        task::Expr::WKVar => Expr::WKVar(()),
        task::Expr::Neg(operand) => Expr::Neg(boxed(operand, expr)),
        task::Expr::Not(operand) => Expr::Not(boxed(operand, expr)),
        task::Expr::BinaryOp(code, operands) => Expr::BinaryOp(OPERATIONS[code], each(operands, expr)),
        task::Expr::Atom(code, operands) => Expr::Atom(RELATIONS[code], each(operands, expr)),
        task::Expr::Imp(operands) => Expr::Imp(each(operands, expr)),
        task::Expr::Iff(operands) => Expr::Iff(each(operands, expr)),
        task::Expr::And(members) => Expr::And(all(members, expr)),
        task::Expr::Or(members) => Expr::Or(all(members, expr)),
        task::Expr::IfThenElse(operands) => Expr::IfThenElse(each(operands, expr)),
        task::Expr::Let(name, operands) => Expr::Let(name, each(operands, expr)),
        task::Expr::App(head, args, output) => Expr::App(boxed(head, expr), (), all(args, expr), output.map(sort)),
        task::Expr::ThyFunc(function, width) => Expr::ThyFunc(theory(function, width)),
        task::Expr::IsCtor(name, operand) => Expr::IsCtor(name, boxed(operand, expr)),
        task::Expr::Quantifier(code, binders, body) => Expr::Quantifier(QUANTIFIERS[code], all(binders, binder), boxed(body, expr)),
    }
}

fn pred<'a>(from: task::Pred<'a>) -> Pred<Names<'a>> {
    match from {
        task::Pred::KVar(name, args) => Pred::KVar(name, all(args, expr)),
        task::Pred::Expr(e) => Pred::Expr(expr(e)),
    }
}

fn constraint<'a>(from: task::Constraint<'a>) -> Constraint<Names<'a>> {
    match from {
        task::Constraint::Pred(head) => Constraint::Pred(pred(head), ()),
        task::Constraint::Conj(members) => Constraint::Conj(all(members, constraint)),
        task::Constraint::ForAll((name, from), preds, body) => {
            Constraint::ForAll(Bind { name, sort: sort(from), preds: all(preds, pred) }, boxed(body, constraint))
        }
    }
}

fn ctor<'a>(from: task::Ctor<'a>) -> DataCtor<Names<'a>> {
    DataCtor { name: from.name, fields: all(from.fields, |(name, from)| DataField { name, sort: sort(from) }) }
}

fn function<'a>(from: task::Function<'a>) -> FunDef<Names<'a>> {
    let sort = FunSort { params: from.params.into(), inputs: all(from.inputs, sort), output: sort(from.output) };
    FunDef { name: from.name, sort, body: from.body.map(|body| FunBody { args: body.args, expr: expr(body.expr) }) }
}

pub fn task<'a>(from: task::Task<'a>) -> Task<Names<'a>> {
    Task {
        comments: all(from.comments, str::to_string),
        data_decls: all(from.datatypes, |from| DataDecl { name: from.name, vars: from.vars.into(), ctors: all(from.ctors, ctor) }),
        constants: all(from.constants, |(name, from)| ConstDecl { name, sort: sort(from) }),
        define_funs: all(from.functions, function),
        kvars: all(from.kvars, |from| KVarDecl { kvid: from.name, sorts: all(from.sorts, sort) }),
        constraint: constraint(from.constraint),
    }
}
