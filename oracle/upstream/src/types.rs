//! What the source's two files take from the rest of their crate: the same names and shapes, and no more than they use.
use std::fmt::{self, Debug, Display, Formatter};
use std::hash::Hash;

pub trait Types {
    type Sort: Identifier + Hash + Clone + Eq;
    type KVar: Identifier;
    type Var: Identifier + Hash + Clone + Eq;
    type String: FixpointFmt;
    type Real: FixpointFmt;
}

pub trait Identifier {
    fn display(&self) -> impl Display;
}

pub trait FixpointFmt {
    fn display(&self) -> impl Display;
}

pub enum SortCtor<T: Types> { Set, Map, Data(T::Sort) }

/// The number of an Abs is not kept: it is never written.
pub enum Sort<T: Types> {
    Int, Bool, Real, Str, BitVec(Box<Self>), BvSize(u32), Var(usize), Func(Box<[Self; 2]>), Abs((), Box<Self>),
    App(SortCtor<T>, Vec<Self>),
}

/// Used only in the message of a panic.
impl<T: Types> Debug for Sort<T> {
    fn fmt(&self, f: &mut Formatter<'_>) -> fmt::Result { f.write_str("sort") }
}

#[derive(Clone, Copy)]
pub enum BinOp { Add, Sub, Mul, Div, Mod }

#[derive(Clone, Copy)]
pub enum BinRel { Eq, Ne, Gt, Ge, Lt, Le }

#[derive(Clone, Copy)]
pub enum Quantifier { Exists, Forall }

#[derive(Clone, Copy)]
pub enum ThyFunc {
    StrLen, StrConcat, StrPrefixOf, StrSuffixOf, StrContains, BvZeroExtend(u8), BvSignExtend(u8), IntToBv8, Bv8ToInt, IntToBv32, Bv32ToInt,
    IntToBv64, Bv64ToInt, IntToBv128, Bv128ToInt, BvUle, BvSle, BvUge, BvSge, BvUdiv, BvSdiv, BvSrem, BvUrem, BvLshr, BvAshr, BvAnd, BvOr,
    BvXor, BvNot, BvAdd, BvNeg, BvSub, BvMul, BvShl, BvUgt, BvSgt, BvUlt, BvSlt, SetEmpty, SetSng, SetCup, SetCap, SetDif, SetSub, SetMem,
    MapDefault, MapSelect, MapStore,
}

pub enum Constant<T: Types> { Numeral(u128), Real(T::Real), Boolean(bool), String(T::String), BitVec(u128, u32) }

/// A weak KVar has no content here, an App no sort arguments.
pub enum Expr<T: Types> {
    Constant(Constant<T>), Var(T::Var), WKVar(()), App(Box<Self>, (), Vec<Self>, Option<Sort<T>>), Neg(Box<Self>),
    BinaryOp(BinOp, Box<[Self; 2]>), IfThenElse(Box<[Self; 3]>), And(Vec<Self>), Or(Vec<Self>), Not(Box<Self>), Imp(Box<[Self; 2]>),
    Iff(Box<[Self; 2]>), Atom(BinRel, Box<[Self; 2]>), Let(T::Var, Box<[Self; 2]>), ThyFunc(ThyFunc), IsCtor(T::Var, Box<Self>),
    Quantifier(Quantifier, Vec<(T::Var, Sort<T>)>, Box<Self>),
}

pub enum Pred<T: Types> { KVar(T::KVar, Vec<Expr<T>>), Expr(Expr<T>) }

impl<T: Types> Pred<T> {
    pub fn is_trivially_true(&self) -> bool { matches!(self, Pred::Expr(Expr::Constant(Constant::Boolean(true)))) }
}

pub struct Bind<T: Types> { pub name: T::Var, pub sort: Sort<T>, pub preds: Vec<Pred<T>> }

/// A head has no tag here.
pub enum Constraint<T: Types> { Pred(Pred<T>, ()), Conj(Vec<Self>), ForAll(Bind<T>, Box<Self>) }

pub struct DataField<T: Types> { pub name: T::Var, pub sort: Sort<T> }
pub struct DataCtor<T: Types> { pub name: T::Var, pub fields: Vec<DataField<T>> }
pub struct DataDecl<T: Types> { pub name: T::Sort, pub vars: usize, pub ctors: Vec<DataCtor<T>> }
pub struct ConstDecl<T: Types> { pub name: T::Var, pub sort: Sort<T> }
pub struct FunSort<T: Types> { pub params: usize, pub inputs: Vec<Sort<T>>, pub output: Sort<T> }
pub struct FunBody<T: Types> { pub args: Vec<T::Var>, pub expr: Expr<T> }
pub struct FunDef<T: Types> { pub name: T::Var, pub sort: FunSort<T>, pub body: Option<FunBody<T>> }
pub struct KVarDecl<T: Types> { pub kvid: T::KVar, pub sorts: Vec<Sort<T>> }
pub struct Task<T: Types> {
    pub comments: Vec<String>, pub data_decls: Vec<DataDecl<T>>, pub constants: Vec<ConstDecl<T>>, pub define_funs: Vec<FunDef<T>>,
    pub kvars: Vec<KVarDecl<T>>, pub constraint: Constraint<T>,
}
