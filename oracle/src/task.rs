//! What a task file holds: its tree, and how a file is read into one or refused with a number.
use crate::scope;
use std::collections::HashSet;

pub type Answer<T> = Result<T, u8>;
pub type Binder<'a> = (&'a str, Sort<'a>);

pub enum SortCtor<'a> { Set, Map, Data(&'a str) }

pub enum Sort<'a> {
    Int, Bool, Real, Str, BitVec(Box<Sort<'a>>), BvSize(u32), Var(u16), Func(Box<[Sort<'a>; 2]>), Abs(u16, Box<Sort<'a>>),
    App(SortCtor<'a>, Vec<Sort<'a>>),
}

/// Operations, relations, theory functions and quantifiers are places in the tables below. The number of a theory function is its width.
pub enum Expr<'a> {
    Numeral(u128), Boolean(bool), Real(u32), String(&'a str), BitVec(u128, u32), Var(&'a str), WKVar, Neg(Box<Expr<'a>>),
    Not(Box<Expr<'a>>), BinaryOp(usize, Box<[Expr<'a>; 2]>), Atom(usize, Box<[Expr<'a>; 2]>), Imp(Box<[Expr<'a>; 2]>),
    Iff(Box<[Expr<'a>; 2]>), And(Vec<Expr<'a>>), Or(Vec<Expr<'a>>), IfThenElse(Box<[Expr<'a>; 3]>), Let(&'a str, Box<[Expr<'a>; 2]>),
    App(Box<Expr<'a>>, Vec<Expr<'a>>, Option<Sort<'a>>), ThyFunc(usize, u8), IsCtor(&'a str, Box<Expr<'a>>),
    Quantifier(usize, Vec<Binder<'a>>, Box<Expr<'a>>),
}

pub enum Pred<'a> { KVar(&'a str, Vec<Expr<'a>>), Expr(Expr<'a>) }
pub enum Constraint<'a> { Pred(Pred<'a>), Conj(Vec<Constraint<'a>>), ForAll(Binder<'a>, Vec<Pred<'a>>, Box<Constraint<'a>>) }

pub struct Ctor<'a> { pub name: &'a str, pub fields: Vec<Binder<'a>> }
pub struct Datatype<'a> { pub name: &'a str, pub vars: u16, pub ctors: Vec<Ctor<'a>> }
pub struct Body<'a> { pub args: Vec<&'a str>, pub expr: Expr<'a> }
pub struct Function<'a> { pub name: &'a str, pub params: u16, pub inputs: Vec<Sort<'a>>, pub output: Sort<'a>, pub body: Option<Body<'a>> }
pub struct KVar<'a> { pub name: &'a str, pub sorts: Vec<Sort<'a>> }
pub struct Task<'a> {
    pub comments: Vec<&'a str>, pub datatypes: Vec<Datatype<'a>>, pub constants: Vec<Binder<'a>>, pub functions: Vec<Function<'a>>,
    pub kvars: Vec<KVar<'a>>, pub constraint: Constraint<'a>,
}

pub const OPERATIONS: [&str; 5] = ["+", "-", "*", "div", "mod"];
pub const RELATIONS: [&str; 6] = ["=", "", ">", ">=", "<", "<="];
/// The relation that has no word of its own.
pub const NE: usize = 1;
pub const QUANTIFIERS: [&str; 2] = ["exists", "forall"];

/// The theory functions in the source's order of declaration, by what is written. The two extends are written with their width, the empty
/// set and the constant array with a sort.
pub const THEORY: [&str; 48] = [
    "str.len", "str.++", "str.prefixof", "str.suffixof", "str.contains", "zero_extend", "sign_extend", "(_ int2bv 8)", "bv2int",
    "(_ int2bv 32)", "bv2int", "(_ int2bv 64)", "bv2int", "(_ int2bv 128)", "bv2int", "bvule", "bvsle", "bvuge", "bvsge", "bvudiv",
    "bvsdiv", "bvsrem", "bvurem", "bvlshr", "bvashr", "bvand", "bvor", "bvxor", "bvnot", "bvadd", "bvneg", "bvsub", "bvmul", "bvshl",
    "bvugt", "bvsgt", "bvult", "bvslt", "emptyset", "singleton", "union", "intersection", "setminus", "subset", "member", "const", "select",
    "store",
];
pub const ZERO_EXTEND: usize = 5;
pub const SIGN_EXTEND: usize = 6;
pub const SET_EMPTY: usize = 38;
pub const MAP_DEFAULT: usize = 45;

pub const SORT_CODES: usize = 12;
pub const EXPR_CODES: usize = 21;
pub const PRED_CODES: usize = 2;
pub const CONSTRAINT_CODES: usize = 3;

impl Pred<'_> {
    /// Literally true: an empty And is not.
    pub fn is_trivially_true(&self) -> bool { matches!(self, Pred::Expr(Expr::Boolean(true))) }
}

// ---- Reading. Refusals 1, 2 and 3 end it. What gets another is noted and reading goes on.

/// The refusals of a file in the order of judging; of 2 and 3 the first met counts.
pub const REFUSALS: [u8; 13] = [1, 2, 3, 4, NO_CTORS, WIDTH, UNQUALIFIED, WEAK, 6, 7, CLASH, UNKNOWN, MISCOUNTED];
/// Those that are noted.
pub const NOTED: &[u8] = REFUSALS.split_at(3).1;
/// The forms that the source cannot write: a datatype without constructors, a BitVec over another sort than BvSize or a BvSize elsewhere,
/// SetEmpty or MapDefault without an output sort, a WKVar.
pub const FORMS: [u8; 4] = [NO_CTORS, WIDTH, UNQUALIFIED, WEAK];
const NO_CTORS: u8 = 5;
const WIDTH: u8 = 12;
const UNQUALIFIED: u8 = 13;
const WEAK: u8 = 14;
/// A ForAll that has the name of something declared.
pub const CLASH: u8 = 15;
/// A name that is not known where it stands.
pub const UNKNOWN: u8 = 10;
/// A KVar with another number of arguments than sorts.
pub const MISCOUNTED: u8 = 11;

pub const TRAILER: usize = 28;
pub const LONGEST_FILE: usize = 60_000;
pub const DEEPEST: usize = 256;

/// In the order of their bytes.
pub const RESERVED: [&str; 43] = [
    "!", "BINARY", "DECIMAL", "HEXADECIMAL", "NUMERAL", "STRING", "_", "as", "assert", "check-sat", "check-sat-assuming", "declare-const",
    "declare-datatype", "declare-datatypes", "declare-fun", "declare-sort", "define-fun", "define-fun-rec", "define-funs-rec",
    "define-sort", "echo", "exists", "exit", "forall", "get-assertions", "get-assignment", "get-info", "get-model", "get-option",
    "get-proof", "get-unsat-assumptions", "get-unsat-core", "get-value", "let", "match", "par", "pop", "push", "reset",
    "reset-assertions", "set-info", "set-logic", "set-option",
];

/// What stands in symbols beside letters and digits.
pub const SIGNS: &[u8; 17] = b"~!@$%^&*_-+=<>.?/";

/// A symbol has letters, digits and 17 signs, no digit in front, and is no reserved word.
pub fn is_symbol(name: &[u8]) -> bool {
    let digit_first = name.first().is_none_or(u8::is_ascii_digit);
    let plain = |byte: &u8| byte.is_ascii_alphanumeric() || SIGNS.contains(byte);
    !digit_first && name.iter().all(plain) && RESERVED.binary_search_by_key(&name, |word| word.as_bytes()).is_err()
}

/// The six offsets.
pub fn trailer(file: &[u8]) -> Answer<[usize; 6]> {
    if file.len() < TRAILER || file.len() > LONGEST_FILE || !file.ends_with(b"HORN") {
        return Err(1);
    }
    let end = file.len() - TRAILER;
    let offsets = std::array::from_fn(|i| file[end + 4 * i..][..4].iter().rev().fold(0, |high, byte| high << 8 | *byte as usize));
    if offsets[0] == 0 && offsets.is_sorted() && offsets[5] <= end { Ok(offsets) } else { Err(1) }
}

/// The level of the children of a piece that is due at `level`.
fn due(level: usize) -> Answer<usize> { if level > DEEPEST { Err(3) } else { Ok(level + 1) } }

/// Bytes as characters. What is not UTF-8 is no symbol and no text, so its file gets 4 and no character of it is written.
fn characters(bytes: &[u8]) -> &str { std::str::from_utf8(bytes).unwrap_or("") }

/// Reads on from `at`; `end` is where the section ends. `faults` has a bit for each refusal that was noted, `around` the names of the
/// ForAlls around.
struct Reader<'a> { bytes: &'a [u8], at: usize, end: usize, faults: u32, around: Vec<&'a str> }

impl<'a> Reader<'a> {
    fn note(&mut self, holds: bool, refusal: u8) { self.faults |= (holds as u32) << refusal }

    /// A piece that gets this refusal.
    fn noted<T>(&mut self, refusal: u8, piece: T) -> T {
        self.note(true, refusal);
        piece
    }

    fn take(&mut self, many: usize) -> Answer<&'a [u8]> {
        let taken = self.bytes[self.at..self.end].get(..many).ok_or(2)?;
        self.at += many;
        Ok(taken)
    }

    fn array<const N: usize>(&mut self) -> Answer<[u8; N]> { self.take(N).map(|bytes| bytes.try_into().expect("N bytes")) }
    fn u16(&mut self) -> Answer<u16> { self.array().map(u16::from_le_bytes) }
    fn u32(&mut self) -> Answer<u32> { self.array().map(u32::from_le_bytes) }
    fn u128(&mut self) -> Answer<u128> { self.array().map(u128::from_le_bytes) }

    /// A byte that has to be below `bound`.
    fn code(&mut self, bound: usize) -> Answer<usize> {
        let [code] = self.array()?;
        if (code as usize) < bound { Ok(code as usize) } else { Err(2) }
    }

    fn name(&mut self) -> Answer<&'a str> {
        let [many] = self.array()?;
        let name = if many > 0 { self.take(many as usize)? } else { return Err(2) };
        self.note(!is_symbol(name), 4);
        Ok(characters(name))
    }

    fn text(&mut self) -> Answer<&'a str> {
        let many = self.u16()? as usize;
        let text = self.take(many)?;
        self.note(text.iter().any(|byte| !(b' '..=b'~').contains(byte)), 4);
        Ok(characters(text))
    }

    fn counted<T>(&mut self, one: impl Fn(&mut Self) -> Answer<T>) -> Answer<Vec<T>> {
        let many = self.u16()?;
        (0..many).map(|_| one(self)).collect()
    }

    fn items<T>(&mut self, end: usize, one: impl Fn(&mut Self) -> Answer<T>) -> Answer<Vec<T>> {
        self.end = end;
        let mut items = Vec::new();
        while self.at < self.end {
            items.push(one(self)?);
        }
        Ok(items)
    }

    fn binder(&mut self, level: usize) -> Answer<Binder<'a>> { Ok((self.name()?, self.sort(level)?)) }
    fn sorts(&mut self, level: usize) -> Answer<Vec<Sort<'a>>> { self.counted(|r| r.sort(level)) }
    fn exprs(&mut self, level: usize) -> Answer<Vec<Expr<'a>>> { self.counted(|r| r.expr(level)) }
    fn one(&mut self, level: usize) -> Answer<Box<Expr<'a>>> { self.expr(level).map(Box::new) }
    fn two(&mut self, level: usize) -> Answer<Box<[Expr<'a>; 2]>> { Ok(Box::new([self.expr(level)?, self.expr(level)?])) }

    fn sort(&mut self, level: usize) -> Answer<Sort<'a>> {
        let below = due(level)?;
        Ok(match self.code(SORT_CODES)? {
            0 => Sort::Int,
            1 => Sort::Bool,
            2 => Sort::Real,
            3 => Sort::Str,
            4 => {
                // A width is right here and nowhere else
                let before = self.faults;
                let size = self.sort(below)?;
                self.faults = if let Sort::BvSize(_) = size { before } else { self.faults | 1 << WIDTH };
                Sort::BitVec(Box::new(size))
            }
            5 => self.u32().map(|size| self.noted(WIDTH, Sort::BvSize(size)))?,
            6 => Sort::Var(self.u16()?),
            7 => Sort::Func(Box::new([self.sort(below)?, self.sort(below)?])),
            8 => Sort::Abs(self.u16()?, Box::new(self.sort(below)?)),
            9 => Sort::App(SortCtor::Set, self.sorts(below)?),
            10 => Sort::App(SortCtor::Map, self.sorts(below)?),
            _ => Sort::App(SortCtor::Data(self.name()?), self.sorts(below)?),
        })
    }

    fn expr(&mut self, level: usize) -> Answer<Expr<'a>> {
        let below = due(level)?;
        Ok(match self.code(EXPR_CODES)? {
            0 => Expr::Numeral(self.u128()?),
            1 => Expr::Boolean(self.code(2)? == 1),
            2 => Expr::Real(self.u32()?),
            3 => Expr::String(self.text()?),
            4 => Expr::BitVec(self.u128()?, self.u32()?),
            5 => Expr::Var(self.name()?),
            6 => self.noted(WEAK, Expr::WKVar),
            7 => Expr::Neg(self.one(below)?),
            8 => Expr::Not(self.one(below)?),
            9 => Expr::BinaryOp(self.code(OPERATIONS.len())?, self.two(below)?),
            10 => Expr::Atom(self.code(RELATIONS.len())?, self.two(below)?),
            11 => Expr::Imp(self.two(below)?),
            12 => Expr::Iff(self.two(below)?),
            13 => Expr::And(self.exprs(below)?),
            14 => Expr::Or(self.exprs(below)?),
            15 => Expr::IfThenElse(Box::new([self.expr(below)?, self.expr(below)?, self.expr(below)?])),
            16 => Expr::Let(self.name()?, self.two(below)?),
            17 => self.app(below)?,
            18 => self.thy_func()?,
            19 => Expr::IsCtor(self.name()?, self.one(below)?),
            _ => Expr::Quantifier(self.code(QUANTIFIERS.len())?, self.counted(|r| r.binder(below))?, self.one(below)?),
        })
    }

    fn app(&mut self, level: usize) -> Answer<Expr<'a>> {
        let output = if self.code(2)? == 1 { Some(self.sort(level)?) } else { None };
        // With an output sort the two functions that need one are right here, and nowhere else
        let before = self.faults;
        let head = self.one(level)?;
        if let (Some(_), Expr::ThyFunc(SET_EMPTY | MAP_DEFAULT, _)) = (&output, &*head) { self.faults = before }
        Ok(Expr::App(head, self.exprs(level)?, output))
    }

    fn thy_func(&mut self) -> Answer<Expr<'a>> {
        let function = self.code(THEORY.len())?;
        self.note(matches!(function, SET_EMPTY | MAP_DEFAULT), UNQUALIFIED);
        let [width] = if let ZERO_EXTEND | SIGN_EXTEND = function { self.array()? } else { [0] };
        Ok(Expr::ThyFunc(function, width))
    }

    fn pred(&mut self, level: usize) -> Answer<Pred<'a>> {
        let below = due(level)?;
        match self.code(PRED_CODES)? {
            0 => Ok(Pred::KVar(self.name()?, self.exprs(below)?)),
            _ => Ok(Pred::Expr(self.expr(below)?)),
        }
    }

    fn constraint(&mut self, level: usize) -> Answer<Constraint<'a>> {
        let below = due(level)?;
        match self.code(CONSTRAINT_CODES)? {
            0 => Ok(Constraint::Pred(self.pred(below)?)),
            1 => Ok(Constraint::Conj(self.counted(|r| r.constraint(below))?)),
            _ => {
                let (binder, preds) = (self.binder(below)?, self.counted(|r| r.pred(below))?);
                self.note(self.around.contains(&binder.0), 7);
                self.around.push(binder.0);
                let body = self.constraint(below)?;
                self.around.pop();
                Ok(Constraint::ForAll(binder, preds, Box::new(body)))
            }
        }
    }

    fn datatype(&mut self) -> Answer<Datatype<'a>> {
        let (name, vars) = (self.name()?, self.u16()?);
        let ctors = self.counted(|r| Ok(Ctor { name: r.name()?, fields: r.counted(|r| r.binder(1))? }))?;
        self.note(ctors.is_empty(), NO_CTORS);
        Ok(Datatype { name, vars, ctors })
    }

    fn function(&mut self) -> Answer<Function<'a>> {
        let (name, params, inputs, output) = (self.name()?, self.u16()?, self.sorts(1)?, self.sort(1)?);
        let body = if self.code(2)? == 1 { Some(Body { args: self.counted(Self::name)?, expr: self.expr(1)? }) } else { None };
        self.note(body.as_ref().is_some_and(|body| body.args.len() != inputs.len()), 6);
        Ok(Function { name, params, inputs, output, body })
    }

    fn task(&mut self, offsets: &[usize; 6]) -> Answer<Task<'a>> {
        let comments = self.items(offsets[1], Self::text)?;
        let datatypes = self.items(offsets[2], Self::datatype)?;
        let constants = self.items(offsets[3], |r| r.binder(1))?;
        let functions = self.items(offsets[4], Self::function)?;
        let kvars = self.items(offsets[5], |r| Ok(KVar { name: r.name()?, sorts: r.sorts(1)? }))?;
        self.end = self.bytes.len();
        let constraint = self.constraint(1)?;
        if self.at < self.end { Err(2) } else { Ok(Task { comments, datatypes, constants, functions, kvars, constraint }) }
    }
}

/// The names that no ForAll may have: those of constants, functions, constructors, fields and KVars. A datatype's own and those of arguments
/// are not among them.
fn declared<'a>(task: &Task<'a>) -> HashSet<&'a str> {
    let ctors = || task.datatypes.iter().flat_map(|datatype| &datatype.ctors);
    let fields = ctors().flat_map(|ctor| &ctor.fields).map(|(name, _)| *name);
    let constants = task.constants.iter().map(|(name, _)| *name);
    let functions = task.functions.iter().map(|function| function.name);
    ctors().map(|ctor| ctor.name).chain(fields).chain(constants).chain(functions).chain(task.kvars.iter().map(|kvar| kvar.name)).collect()
}

/// Whether a ForAll has one of these names, be there heads under it or not.
fn clashes(constraint: &Constraint, names: &HashSet<&str>) -> bool {
    match constraint {
        Constraint::Pred(_) => false,
        Constraint::Conj(members) => members.iter().any(|member| clashes(member, names)),
        Constraint::ForAll((name, _), _, body) => names.contains(name) || clashes(body, names),
    }
}

/// The task with the bits of what was noted, or the first met of refusals 1 to 3.
fn read(file: &[u8]) -> Answer<(Task<'_>, u32)> {
    let offsets = trailer(file)?;
    let mut reader = Reader { bytes: &file[..file.len() - TRAILER], at: 0, end: 0, faults: 0, around: Vec::new() };
    let task = reader.task(&offsets)?;
    reader.note(clashes(&task.constraint, &declared(&task)), CLASH);
    let found = scope::found(&task);
    reader.note(found.unknown, UNKNOWN);
    reader.note(found.miscounted, MISCOUNTED);
    Ok((task, reader.faults))
}

/// The refusals of these bits in the order of judging.
fn judged(faults: u32) -> impl Iterator<Item = u8> { NOTED.iter().copied().filter(move |refusal| faults >> refusal & 1 == 1) }

/// The task, or the refusal: the first met of 1 to 3, else the first judged of what was noted.
pub fn accepted(file: &[u8]) -> Answer<Task<'_>> {
    let (task, faults) = read(file)?;
    judged(faults).next().map_or(Ok(task), Err)
}

/// All that was noted of a task, in the order of judging.
pub fn noted(file: &[u8]) -> Answer<Vec<u8>> { Ok(judged(read(file)?.1).collect()) }

/// The task, whatever was noted of it.
pub fn decoded(file: &[u8]) -> Answer<Task<'_>> { Ok(read(file)?.0) }
