//! An independent rendering of how a task file is read and refused, and a maker of test files. It decodes a file into a tree, judges the
//! tree, and writes the files that `crates/inspections` is fed and the answers it has to give, with nothing of `crates/task` in it.
//!
//!     cargo run --release --manifest-path oracle/Cargo.toml --target-dir target/cargo --bin inspections -- crates/inspections
//!
//! It writes `stdin` (each file behind its length, 4 bytes little-endian) and `stdout` (a line for each file) into the directory named.
//! Most cases carry the answer they were made for, and the run stops where the rendering disagrees. Files with a border moved, and those
//! damaged or made faulty by chance, carry none.
use oracle::chance::{Chance, SEED};
use oracle::words::{self, joined, offsets, sealed, Usual};
use std::{collections::HashSet, env, fs, io, path::Path};

// ---- The tree. Codes and numbers that no rule speaks of are read and not kept.

type Name = Vec<u8>;
type Answer<T> = Result<T, u8>;

/// `Plain` is Int, Bool, Real, Str and Var, `App` what has arguments only: Func, Abs, Set and Map.
enum Sort { Plain, BvSize, BitVec(Box<Sort>), App(Vec<Sort>), Data(Name, Vec<Sort>) }

/// `Number` is Numeral, Real and BitVec, `Operation` what has operands only: Neg, Not, BinaryOp, Atom, Imp, Iff, And, Or, IfThenElse.
enum Expr {
    Number, Boolean(bool), String(Vec<u8>), Var(Name), WKVar, ThyFunc(u8), Operation(Vec<Expr>), Let(Name, Vec<Expr>),
    App(Option<Sort>, Box<Expr>, Vec<Expr>), IsCtor(Name, Vec<Expr>), Quantifier(Vec<(Name, Sort)>, Box<Expr>),
}

enum Pred { KVar(Name, Vec<Expr>), Expr(Expr) }
enum Constraint { Pred(Pred), Conj(Vec<Constraint>), ForAll(Name, Sort, Vec<Pred>, Box<Constraint>) }

struct Function { name: Name, inputs: Vec<Sort>, output: Sort, body: Option<(Vec<Name>, Expr)> }
struct Task {
    comments: Vec<Vec<u8>>, datatypes: Vec<(Name, Vec<(Name, Vec<(Name, Sort)>)>)>, constants: Vec<(Name, Sort)>,
    functions: Vec<Function>, kvars: Vec<(Name, Vec<Sort>)>, constraint: Constraint,
}

// Places of theory functions in the source's order of declaration
const ZERO_EXTEND: u8 = 5;
const SIGN_EXTEND: u8 = 6;
const SET_EMPTY: u8 = 38;
const MAP_DEFAULT: u8 = 45;

// ---- Refusals 1, 2 and 3: reading front to back

const TRAILER: usize = 28;
const LONGEST: usize = 60_000;
const DEEPEST: usize = 256;

fn trailer(file: &[u8]) -> Answer<[usize; 6]> {
    if file.len() < TRAILER || file.len() > LONGEST || !file.ends_with(b"HORN") {
        return Err(1);
    }
    let end = file.len() - TRAILER;
    let offset = |i: usize| file[end + 4 * i..][..4].iter().rev().fold(0, |high, byte| high * 256 + *byte as usize);
    let offsets = std::array::from_fn(offset);
    if offsets[0] == 0 && offsets.is_sorted() && offsets[5] <= end { Ok(offsets) } else { Err(1) }
}

/// Reads on from `at`; `end` is where the section ends.
struct Reader<'a> { bytes: &'a [u8], at: usize, end: usize }

/// The level of the children of a piece that is due at `level`.
fn due(level: usize) -> Answer<usize> {
    if level > DEEPEST { Err(3) } else { Ok(level + 1) }
}

impl Reader<'_> {
    fn take(&mut self, many: usize) -> Answer<&[u8]> {
        if many > self.end - self.at {
            return Err(2);
        }
        self.at += many;
        Ok(&self.bytes[self.at - many..self.at])
    }

    /// A byte that has to be below `bound`.
    fn code(&mut self, bound: u8) -> Answer<u8> {
        Ok(self.take(1)?[0]).and_then(|code| if code < bound { Ok(code) } else { Err(2) })
    }

    fn number(&mut self) -> Answer<usize> {
        self.take(2).map(|bytes| bytes[0] as usize + 256 * bytes[1] as usize)
    }

    fn name(&mut self) -> Answer<Name> {
        match self.take(1)?[0] {
            0 => Err(2),
            many => Ok(self.take(many as usize)?.to_vec()),
        }
    }

    fn text(&mut self) -> Answer<Vec<u8>> {
        let many = self.number()?;
        Ok(self.take(many)?.to_vec())
    }

    fn many<T>(&mut self, many: usize, one: impl Fn(&mut Self) -> Answer<T>) -> Answer<Vec<T>> {
        (0..many).map(|_| one(self)).collect()
    }

    fn counted<T>(&mut self, one: impl Fn(&mut Self) -> Answer<T>) -> Answer<Vec<T>> {
        let many = self.number()?;
        self.many(many, one)
    }

    fn items<T>(&mut self, end: usize, one: impl Fn(&mut Self) -> Answer<T>) -> Answer<Vec<T>> {
        self.end = end;
        let mut items = Vec::new();
        while self.at < self.end {
            items.push(one(self)?);
        }
        Ok(items)
    }

    fn named_sort(&mut self, level: usize) -> Answer<(Name, Sort)> {
        Ok((self.name()?, self.sort(level)?))
    }

    fn sort(&mut self, level: usize) -> Answer<Sort> {
        let below = due(level)?;
        Ok(match self.code(12)? {
            4 => Sort::BitVec(Box::new(self.sort(below)?)),
            5 => self.take(4).map(|_| Sort::BvSize)?,
            6 => self.take(2).map(|_| Sort::Plain)?,
            7 => Sort::App(self.many(2, |r| r.sort(below))?),
            8 => self.number().and_then(|_| Ok(Sort::App(self.many(1, |r| r.sort(below))?)))?,
            9 | 10 => Sort::App(self.counted(|r| r.sort(below))?),
            11 => Sort::Data(self.name()?, self.counted(|r| r.sort(below))?),
            _ => Sort::Plain,
        })
    }

    fn expr(&mut self, level: usize) -> Answer<Expr> {
        let below = due(level)?;
        Ok(match self.code(21)? {
            0 => self.take(16).map(|_| Expr::Number)?,
            1 => Expr::Boolean(self.code(2)? == 1),
            2 => self.take(4).map(|_| Expr::Number)?,
            3 => Expr::String(self.text()?),
            4 => self.take(16 + 4).map(|_| Expr::Number)?,
            5 => Expr::Var(self.name()?),
            6 => Expr::WKVar,
            7 | 8 => Expr::Operation(self.many(1, |r| r.expr(below))?),
            9 => self.code(5).and_then(|_| Ok(Expr::Operation(self.many(2, |r| r.expr(below))?)))?,
            10 => self.code(6).and_then(|_| Ok(Expr::Operation(self.many(2, |r| r.expr(below))?)))?,
            11 | 12 => Expr::Operation(self.many(2, |r| r.expr(below))?),
            13 | 14 => Expr::Operation(self.counted(|r| r.expr(below))?),
            15 => Expr::Operation(self.many(3, |r| r.expr(below))?),
            16 => Expr::Let(self.name()?, self.many(2, |r| r.expr(below))?),
            17 => {
                let output = if self.code(2)? == 1 { Some(self.sort(below)?) } else { None };
                Expr::App(output, Box::new(self.expr(below)?), self.counted(|r| r.expr(below))?)
            }
            18 => {
                let function = self.code(48)?;
                self.take(matches!(function, ZERO_EXTEND | SIGN_EXTEND) as usize)?;
                Expr::ThyFunc(function)
            }
            19 => Expr::IsCtor(self.name()?, self.many(1, |r| r.expr(below))?),
            _ => {
                self.code(2)?;
                Expr::Quantifier(self.counted(|r| r.named_sort(below))?, Box::new(self.expr(below)?))
            }
        })
    }

    fn pred(&mut self, level: usize) -> Answer<Pred> {
        let below = due(level)?;
        match self.code(2)? {
            0 => Ok(Pred::KVar(self.name()?, self.counted(|r| r.expr(below))?)),
            _ => Ok(Pred::Expr(self.expr(below)?)),
        }
    }

    fn constraint(&mut self, level: usize) -> Answer<Constraint> {
        let below = due(level)?;
        match self.code(3)? {
            0 => Ok(Constraint::Pred(self.pred(below)?)),
            1 => Ok(Constraint::Conj(self.counted(|r| r.constraint(below))?)),
            _ => {
                let (name, sort) = self.named_sort(below)?;
                Ok(Constraint::ForAll(name, sort, self.counted(|r| r.pred(below))?, Box::new(self.constraint(below)?)))
            }
        }
    }

    fn function(&mut self) -> Answer<Function> {
        let (name, _params) = (self.name()?, self.number()?);
        let (inputs, output) = (self.counted(|r| r.sort(1))?, self.sort(1)?);
        let body = if self.code(2)? == 1 { Some((self.counted(Self::name)?, self.expr(1)?)) } else { None };
        Ok(Function { name, inputs, output, body })
    }

    fn task(&mut self, offsets: &[usize; 6]) -> Answer<Task> {
        let comments = self.items(offsets[1], Self::text)?;
        let datatypes = self.items(offsets[2], |r| {
            let (name, _vars) = (r.name()?, r.number()?);
            Ok((name, r.counted(|r| Ok((r.name()?, r.counted(|r| r.named_sort(1))?)))?))
        })?;
        let constants = self.items(offsets[3], |r| r.named_sort(1))?;
        let functions = self.items(offsets[4], Self::function)?;
        let kvars = self.items(offsets[5], |r| Ok((r.name()?, r.counted(|r| r.sort(1))?)))?;
        self.end = self.bytes.len();
        let constraint = self.constraint(1)?;
        if self.at < self.end { Err(2) } else { Ok(Task { comments, datatypes, constants, functions, kvars, constraint }) }
    }
}

// ---- The other refusals: all that holds of a tree, a bit for each

/// In the order of judging; the lowest bit is the first's.
const JUDGED: [u8; 10] = [4, 5, 12, 13, 14, 6, 7, 15, 10, 11];

type Faults = u16;
const TEXT: Faults = 1;
const NO_CTORS: Faults = 1 << 1;
const WIDTH: Faults = 1 << 2;
const NO_SORT: Faults = 1 << 3;
const WEAK: Faults = 1 << 4;
const ARITY: Faults = 1 << 5;
const REPEATED: Faults = 1 << 6;
const DECLARED: Faults = 1 << 7;
const UNKNOWN: Faults = 1 << 8;
const MISCOUNTED: Faults = 1 << 9;

const RESERVED: &str = "! _ as let exists forall match par BINARY DECIMAL HEXADECIMAL NUMERAL STRING assert check-sat check-sat-assuming \
    declare-const declare-datatype declare-datatypes declare-fun declare-sort define-fun define-fun-rec define-funs-rec define-sort echo \
    exit get-assertions get-assignment get-info get-model get-option get-proof get-unsat-assumptions get-unsat-core get-value pop push \
    reset reset-assertions set-info set-logic set-option";

fn fault_if(holds: bool, fault: Faults) -> Faults {
    if holds { fault } else { 0 }
}

fn any<T>(items: &[T], faults: impl Fn(&T) -> Faults) -> Faults {
    items.iter().fold(0, |found, item| found | faults(item))
}

/// A symbol has letters, digits and 17 signs, no digit in front, and is no reserved word.
fn in_name(name: &Name) -> Faults {
    let plain = |b: &u8| b.is_ascii_alphanumeric() || b"~!@$%^&*_-+=<>.?/".contains(b);
    let reserved = RESERVED.split_whitespace().any(|word| word.as_bytes() == &name[..]);
    fault_if(reserved || name[0].is_ascii_digit() || !name.iter().all(plain), TEXT)
}

fn in_text(text: &Vec<u8>) -> Faults {
    fault_if(text.iter().any(|b| !(32..=126).contains(b)), TEXT)
}

fn in_named_sort((name, sort): &(Name, Sort)) -> Faults {
    in_name(name) | in_sort(sort)
}

fn in_sort(sort: &Sort) -> Faults {
    match sort {
        Sort::Plain => 0,
        Sort::BvSize => WIDTH,
        Sort::BitVec(size) => if let Sort::BvSize = **size { 0 } else { WIDTH | in_sort(size) },
        Sort::App(args) => any(args, in_sort),
        Sort::Data(name, args) => in_name(name) | any(args, in_sort),
    }
}

fn needs_sort(expr: &Expr) -> bool {
    matches!(expr, Expr::ThyFunc(SET_EMPTY | MAP_DEFAULT))
}

fn in_expr(expr: &Expr) -> Faults {
    match expr {
        Expr::Number | Expr::Boolean(_) => 0,
        Expr::String(text) => in_text(text),
        Expr::Var(name) => in_name(name),
        Expr::WKVar => WEAK,
        Expr::ThyFunc(_) => fault_if(needs_sort(expr), NO_SORT),
        Expr::Operation(operands) => any(operands, in_expr),
        Expr::Let(name, operands) | Expr::IsCtor(name, operands) => in_name(name) | any(operands, in_expr),
        Expr::App(None, head, args) => in_expr(head) | any(args, in_expr),
        Expr::App(Some(sort), head, args) => in_sort(sort) | if needs_sort(head) { 0 } else { in_expr(head) } | any(args, in_expr),
        Expr::Quantifier(binders, body) => any(binders, in_named_sort) | in_expr(body),
    }
}

fn in_pred(pred: &Pred) -> Faults {
    match pred {
        Pred::KVar(name, args) => in_name(name) | any(args, in_expr),
        Pred::Expr(e) => in_expr(e),
    }
}

fn in_constraint(constraint: &Constraint, declared: &HashSet<&Name>, around: &[&Name]) -> Faults {
    match constraint {
        Constraint::Pred(pred) => in_pred(pred),
        Constraint::Conj(members) => any(members, |c| in_constraint(c, declared, around)),
        Constraint::ForAll(name, sort, preds, body) => {
            let binder = fault_if(around.contains(&name), REPEATED) | fault_if(declared.contains(name), DECLARED);
            let own = in_name(name) | in_sort(sort) | any(preds, in_pred) | binder;
            own | in_constraint(body, declared, &[around, &[name]].concat())
        }
    }
}

fn in_function(function: &Function) -> Faults {
    let in_body = |(args, e): &(Vec<Name>, Expr)| fault_if(args.len() != function.inputs.len(), ARITY) | any(args, in_name) | in_expr(e);
    in_name(&function.name) | any(&function.inputs, in_sort) | in_sort(&function.output) | function.body.as_ref().map_or(0, in_body)
}

/// The names of constructors, fields, constants, functions and KVars: no ForAll may have one of them.
fn declared(task: &Task) -> HashSet<&Name> {
    let mut names = HashSet::new();
    for (name, fields) in task.datatypes.iter().flat_map(|(_, ctors)| ctors) {
        names.insert(name);
        names.extend(fields.iter().map(|(name, _)| name));
    }
    names.extend(task.constants.iter().map(|(name, _)| name));
    names.extend(task.functions.iter().map(|function| &function.name));
    names.extend(task.kvars.iter().map(|(name, _)| name));
    names
}

fn in_task(task: &Task) -> Faults {
    any(&task.comments, in_text)
        | any(&task.datatypes, |(name, ctors)| {
            in_name(name) | fault_if(ctors.is_empty(), NO_CTORS) | any(ctors, |(name, fields)| in_name(name) | any(fields, in_named_sort))
        })
        | any(&task.constants, in_named_sort)
        | any(&task.functions, in_function)
        | any(&task.kvars, |(name, sorts)| in_name(name) | any(sorts, in_sort))
        | in_constraint(&task.constraint, &declared(task), &[])
        | names_in_task(task)
}

// ---- Names: a second walk over the tree, with what is known at each place

/// The names of one scope, and what is known around it.
struct Known<'k> { names: Vec<&'k Name>, around: Option<&'k Known<'k>> }

impl<'k> Known<'k> {
    fn has(&self, name: &Name) -> bool { self.names.contains(&name) || self.around.is_some_and(|around| around.has(name)) }
    fn with(&'k self, names: impl IntoIterator<Item = &'k Name>) -> Known<'k> { Known { names: names.into_iter().collect(), around: Some(self) } }
}

/// Constructors, and KVars with their numbers of sorts, in the order of the file.
struct Signature<'t> { ctors: HashSet<&'t Name>, kvars: Vec<(&'t Name, usize)> }

impl Signature<'_> {
    fn in_exprs(&self, exprs: &[Expr], known: &Known) -> Faults { any(exprs, |e| self.in_expr(e, known)) }

    fn in_expr(&self, expr: &Expr, known: &Known) -> Faults {
        match expr {
            Expr::Number | Expr::Boolean(_) | Expr::String(_) | Expr::WKVar | Expr::ThyFunc(_) => 0,
            Expr::Var(name) => fault_if(!known.has(name), UNKNOWN),
            Expr::Operation(operands) => self.in_exprs(operands, known),
            Expr::Let(name, operands) => self.in_expr(&operands[0], known) | self.in_expr(&operands[1], &known.with([name])),
            Expr::App(_, head, args) => self.in_expr(head, known) | self.in_exprs(args, known),
            Expr::IsCtor(name, operands) => fault_if(!self.ctors.contains(name), UNKNOWN) | self.in_exprs(operands, known),
            Expr::Quantifier(binders, body) => self.in_expr(body, &known.with(binders.iter().map(|(name, _)| name))),
        }
    }

    fn in_pred(&self, pred: &Pred, known: &Known) -> Faults {
        match pred {
            Pred::KVar(name, args) => {
                let sorts = self.kvars.iter().find(|(declared, _)| *declared == name).map(|(_, sorts)| *sorts);
                let fault = fault_if(sorts.is_none(), UNKNOWN) | fault_if(sorts.is_some_and(|sorts| sorts != args.len()), MISCOUNTED);
                fault | self.in_exprs(args, known)
            }
            Pred::Expr(e) => self.in_expr(e, known),
        }
    }

    fn in_constraint(&self, constraint: &Constraint, known: &Known) -> Faults {
        match constraint {
            Constraint::Pred(pred) => self.in_pred(pred, known),
            Constraint::Conj(members) => any(members, |c| self.in_constraint(c, known)),
            Constraint::ForAll(name, _, preds, body) => {
                let inside = known.with([name]);
                any(preds, |pred| self.in_pred(pred, &inside)) | self.in_constraint(body, &inside)
            }
        }
    }
}

fn names_in_task(task: &Task) -> Faults {
    let ctors = || task.datatypes.iter().flat_map(|(_, ctors)| ctors);
    let signature = Signature {
        ctors: ctors().map(|(name, _)| name).collect(),
        kvars: task.kvars.iter().map(|(name, sorts)| (name, sorts.len())).collect(),
    };
    let fields = ctors().flat_map(|(_, fields)| fields);
    let names = ctors().map(|(name, _)| name).chain(fields.chain(&task.constants).map(|(name, _)| name));
    let declared = Known { names: names.collect(), around: None };
    let before = |end: usize| declared.with(task.functions[..end].iter().map(|function| &function.name));
    let bodies = task.functions.iter().enumerate().filter_map(|(i, function)| Some((i, function.body.as_ref()?)));
    let in_bodies = bodies.fold(0, |found, (i, (args, e))| found | signature.in_expr(e, &before(i).with(args)));
    in_bodies | signature.in_constraint(&task.constraint, &before(task.functions.len()))
}


// ---- The answer

struct Inspection { offsets: [usize; 6], end: usize, declarations: usize, heads: usize }

/// The number of heads that are not literally true.
fn heads(constraint: &Constraint) -> usize {
    match constraint {
        Constraint::Pred(Pred::Expr(Expr::Boolean(true))) => 0,
        Constraint::Pred(_) => 1,
        Constraint::Conj(members) => members.iter().map(heads).sum(),
        Constraint::ForAll(_, _, _, body) => heads(body),
    }
}

fn inspect(file: &[u8]) -> Answer<Inspection> {
    let offsets = trailer(file)?;
    let end = file.len() - TRAILER;
    let task = Reader { bytes: &file[..end], at: 0, end: 0 }.task(&offsets)?;
    let faults = in_task(&task);
    if faults != 0 {
        return Err(JUDGED[faults.trailing_zeros() as usize]);
    }
    let declarations = task.datatypes.len() + task.constants.len() + task.functions.len() + task.kvars.len();
    Ok(Inspection { offsets, end, declarations, heads: heads(&task.constraint) })
}

// ---- Files in the notation of words

/// A name, one that is declared, a binder, those of a Var, of an IsCtor and of a KVar predicate; a sort, an expression, a predicate, a constraint; a
/// head literally true and one that is not; ForAlls without a body.
const USUAL: &Usual = &[
    ("N", "'n"), ("M", "'m"), ("B", "'x"), ("V", "'n"), ("W", "'n"), ("K", "'n"), ("S", "0"), ("E", "1 0"), ("P", "0 'k #0"), ("C", "1 #0"),
    ("T", "0 1 1 1"), ("H", "0 0 'k #0"), ("X", "2 'x 0 #0"), ("Y", "2 'y 0 #0"),
];

/// Declarations of the names in them: `n` is a constructor and a KVar; `l` is a KVar with two sorts.
const USUAL_DECLARED: &str = "d: 'U *2 #1 'n #0 v: 'k #0 'n #0 'l #2 S S";
const MANY_DECLARED: usize = 4;

fn bytes(words: &str) -> Vec<u8> { words::bytes(words, USUAL).expect("words") }
fn sections(words: &str) -> Vec<Vec<u8>> { words::sections(words, USUAL).expect("words") }

/// With the usual declarations in front.
fn closed(words: &str) -> Vec<Vec<u8>> { sections(&format!("{USUAL_DECLARED} {words}")) }

/// Each kind of piece: its letter, a file with one, the level there (0 for an item), its forms, and some forms that are refused.
type Kind = (&'static str, &'static str, usize, &'static [&'static str], &'static [&'static str]);

const KINDS: [Kind; 9] = [
    ("c", "c: @", 0, &["#0", "\"(ok)", "\"a;|\"~"], &["#1 10", "#2 97 127"]),
    ("d", "d: @", 0, &["'D 2 0 #2 'c #0 'd #2 'f 6 1 0 'g 11 'D #0", "N 1 0 #1 M #1 M S"], &["N 0 0 #0"]),
    ("k", "k: @", 0, &["M S"], &["M 4 S"]),
    ("f", "f: @", 0, &["'g 0 1 #1 0 1 0", "M 0 0 #1 S S 1 #1 N E"], &["M 0 0 #1 S S 1 #0 E", "M 0 0 #0 S 1 #1 N E"]),
    ("v", "v: @", 0, &["'k #0", "M #2 1 S"], &["M #1 5 *4"]),
    ("S", "k: 'c @", 1, &["0", "1", "2", "3", "4 5 8 *3", "6 1 0", "7 S S", "8 1 0 S", "9 #0", "9 #1 S", "10 #2 0 S", "11 'D #0",
        "11 N #1 S"], &["5 8 *3", "4 0", "4 4 5 *4"]),
    ("E", "h: 0 1 @", 3, &["0 *16", "1 0", "2 *4", "3 #0", "3 #2 32 126", "3 #2 34 34", "4 *20", "5 V", "7 E", "8 E", "9 4 E E", "10 5 E E",
        "11 E E", "12 E E", "13 #0", "13 #1 E", "14 #3 E E E", "15 E E E", "16 N E E", "17 0 E #1 E", "17 1 S 18 38 #0", "17 1 0 18 45 #1 E", "18 0",
        "18 5 255", "19 W E", "20 0 #0 E", "20 1 #2 N S 'q 1 E"], &["6", "18 38", "18 45", "17 0 18 38 #0", "3 #1 127", "3 #2 34 31"]),
    ("P", "h: 0 @", 2, &["1 E", "1 1 1", "0 K #0", "0 'l #2 E E"], &["0 'let #0", "0 'k #1 E", "0 'l #0", "0 'l #3 E E E"]),
    ("C", "h: @", 1, &["0 P", "1 #0", "1 #2 C C", "1 #3 C C C", "2 B 0 #0 C", "2 B S #2 P P C"], &[]),
];

/// The declarations and heads of a kind's file with this form in it.
fn counts(letter: &str, form: &str) -> (usize, usize) {
    ("dkfvS".contains(letter) as usize, (form == "0 P" || "EP".contains(letter) && form != "1 1 1") as usize)
}

/// A place for a piece in a form: the words around it in the form and around the form, and the form's level.
struct Place { form: &'static str, own: [String; 2], file: [&'static str; 2], level: usize, counts: (usize, usize) }

impl Place {
    fn with(&self, times: usize, piece: &str) -> String {
        [self.file[0], &self.own[0].repeat(times), piece, " ", &self.own[1].repeat(times), self.file[1]].concat()
    }

    /// Whether a name there has to be known.
    fn is_use(&self) -> bool { ["5 V", "19 W E", "0 K #0"].contains(&self.form) }
}

/// The places for pieces of this kind in forms of the same kind (`nested`) or of others.
fn places(piece: &str, nested: bool) -> Vec<Place> {
    let mut places = Vec::new();
    for &(letter, file, level, forms, _) in KINDS.iter().filter(|kind| nested == (kind.0 == piece)) {
        let around: Vec<&str> = file.split('@').collect();
        for &form in forms {
            let words: Vec<&str> = form.split(' ').collect();
            for i in (0..words.len()).filter(|i| words[*i] == piece) {
                let own = [&words[..i], &words[i + 1..]].map(|words| words.iter().map(|word| format!("{word} ")).collect());
                places.push(Place { form, own, file: [around[0], around[1]], level, counts: counts(letter, form) });
            }
        }
    }
    places
}

/// A file with every kind of piece, as the items of each section; 8 declarations, 2 heads.
fn rich() -> Vec<Vec<String>> {
    let (sorts, exprs) = (KINDS[5].3, KINDS[6].3);
    let datatype = format!("'D 2 0 #1 'd #{} 'f {}", sorts.len(), sorts.join(" 'f "));
    let constraint = format!("2 'x 0 #1 1 1 1 1 #3 H T 2 'y S #1 P 0 1 13 #{} {}", exprs.len(), exprs.join(" "));
    let (comments, datatypes, constants) = (["#0", "\"(ok)"], ["'E 0 0 #1 'n #0", &datatype], ["'a 0", "'b 11 'D #2 0 1"]);
    let items = [&comments[..], &datatypes, &constants, KINDS[3].3, KINDS[4].3, &[&constraint]];
    items.iter().map(|items| items.iter().map(|item| item.to_string()).collect()).collect()
}

// ---- The cases

#[derive(Default)]
struct Cases { stdin: Vec<u8>, stdout: String, counts: [usize; 16] }

impl Cases {
    fn answer(&mut self, file: &[u8]) -> Answer<(usize, usize)> {
        self.stdin.extend((file.len() as u32).to_le_bytes());
        self.stdin.extend(file);
        let inspection = inspect(file);
        self.stdout += &match &inspection {
            Ok(Inspection { offsets: [a, b, c, d, e, f], end, declarations, heads }) => {
                format!("task {a} {b} {c} {d} {e} {f} end {end} declarations {declarations} heads {heads}\n")
            }
            Err(refusal) => format!("refused {refusal}\n"),
        };
        self.counts[*inspection.as_ref().err().unwrap_or(&0) as usize] += 1;
        inspection.map(|found| (found.declarations, found.heads))
    }

    fn file(&mut self, expected: Answer<(usize, usize)>, file: &[u8]) {
        assert_eq!(self.answer(file), expected, "bytes {file:?}");
    }

    /// A file with the usual declarations, and the other declarations and the heads that are due.
    fn is(&mut self, expected: Answer<(usize, usize)>, words: &str) {
        self.file(expected.map(|(declarations, heads)| (declarations + MANY_DECLARED, heads)), &joined(&closed(words)));
    }

    /// One without them.
    fn just(&mut self, expected: Answer<(usize, usize)>, words: &str) {
        self.file(expected, &joined(&sections(words)));
    }

    fn no(&mut self, refusal: u8, words: &str) {
        self.is(Err(refusal), words);
    }
}

fn limits(cases: &mut Cases) {
    for file in [vec![], vec![0; 27], vec![0; 28], b"HORN".to_vec(), [&[0; 23], &b"HORN"[..]].concat()] {
        cases.file(Err(1), &file);
    }
    cases.file(Err(2), &[&[0; 24], &b"HORN"[..]].concat());
    // Case S
    let s = words::packed(words::S);
    assert!(s.len() == 108 && trailer(&s) == Ok([0, 0, 0, 3, 3, 9]));
    cases.file(Ok((2, 2)), &s);
    cases.file(Err(1), &s[..107]);
    (104..108).for_each(|i| cases.file(Err(1), &[&s[..i], &[s[i] ^ 32], &s[i + 1..]].concat()));
    // Offsets, on a file whose sections all hold something
    let parts: Vec<Vec<u8>> = rich().iter().map(|items| bytes(&items.join(" "))).collect();
    let (body, right) = (parts.concat(), offsets(&parts));
    let with = |i: usize, offset: usize| sealed(&body, std::array::from_fn(|j| if i == j { offset } else { right[j] }));
    cases.file(Ok((8, 2)), &with(0, 0));
    [1, 256, 1 << 24].iter().for_each(|offset| cases.file(Err(1), &with(0, *offset)));
    for i in 1..6 {
        cases.file(Err(1), &with(i - 1, right[i] + 1));
        cases.file(Err(1), &with(i, right[i] + (1 << (16 + i % 2 * 8))));
        // A border moved forward or back
        for by in [4, 6] {
            let _ = cases.answer(&with(i, right[i] + by - 5));
        }
    }
    cases.file(Err(1), &with(5, body.len() + 1));
    cases.file(Err(1), &with(5, u32::MAX as usize));
    cases.file(Err(2), &with(5, body.len()));
    // 60,000 and 60,001 bytes
    let comment = format!("\"{} ", "c".repeat(97));
    let comments = |rest: usize, last: u8| format!("c: {} #{rest} {} {last}", comment.repeat(604), "100 ".repeat(rest - 1));
    let wide = |count: usize| format!("h: 1 #{count} {} C C C", "T 0 1 1 0 0 1 E ".repeat(4996) + "T 0 1 E");
    assert!([comments(171, 100), wide(0)].iter().all(|words| sections(words).concat().len() + TRAILER == LONGEST));
    cases.just(Ok((0, 0)), &comments(171, 100));
    cases.just(Err(4), &comments(171, 127));
    cases.just(Err(1), &comments(172, 100));
    cases.just(Ok((0, 9993)), &wide(14993));
    cases.just(Err(2), &wide(14994));
}

fn codes(cases: &mut Cases) {
    let yes = |holds: bool, counts: (usize, usize), refusal: u8| if holds { Ok(counts) } else { Err(refusal) };
    for (letter, file, _, forms, _) in KINDS {
        forms.iter().for_each(|form| cases.is(Ok(counts(letter, form)), &file.replace('@', form)));
    }
    let function = |code: usize| format!("18 {code} {}", if code == 5 || code == 6 { "8" } else { "" });
    for code in (0..8).chain(36..48) {
        cases.is(yes(code != 38 && code != 45, (0, 1), 13), &format!("h: 0 1 {}", function(code)));
    }
    let plain: Vec<String> = (0..48).filter(|code| *code != 38 && *code != 45).map(function).collect();
    cases.is(Ok((0, 1)), &format!("h: 0 1 13 #46 {}", plain.join(" ")));
    (0..6).for_each(|code| cases.is(yes(code < 5, (0, 1), 2), &format!("h: 0 1 9 {code} E E")));
    (0..7).for_each(|code| cases.is(yes(code < 6, (0, 1), 2), &format!("h: 0 1 10 {code} E E")));
    for words in [
        "h: 0 1 18 5", "h: 0 1 18 6", "h: 0 1 18 48", "h: 0 1 18 255", "h: 0 1 18", "h: 0 1 21", "h: 0 1 21 E", "h: 0 1 21 0 #0 E",
        "h: 0 1 255 E", "h: 0 1", "h: 0 2 E", "h: 0 2 'k #0", "h: 0 255 E", "h: 0", "h: 3", "h: 3 #0", "h: 3 'x S #0 C", "h: 255 #0", "h:",
        "k: 'c 12", "k: 'c 12 'D #0", "k: 'c 255", "k: 'c", "h: C 0", "h: C C", "h: 1 #65535 C",
    ] {
        cases.no(2, words);
    }
    // Flags: Boolean, App, Quantifier, a function's body
    for flag in [0, 1, 2] {
        let (sort, body) = if flag == 1 { ("S", "#0 E") } else { ("", "") };
        cases.is(yes(flag < 2, (0, (flag != 1) as usize), 2), &format!("h: 0 1 1 {flag}"));
        cases.is(yes(flag < 2, (0, 1), 2), &format!("h: 0 1 17 {flag} {sort} E #0"));
        cases.is(yes(flag < 2, (0, 1), 2), &format!("h: 0 1 20 {flag} #0 E"));
        cases.is(yes(flag < 2, (1, 0), 2), &format!("f: 'f *2 #0 S {flag} {body}"));
    }
    // Only Boolean true itself is literally true
    for expr in ["13 #1 1 1", "8 1 0", "5 'true", "17 0 1 1 #0"] {
        cases.is(Ok((0, 1)), &format!("h: 2 'true S #0 0 1 {expr}"));
    }
    // The two functions that need an output sort
    for (expected, expr) in [
        (Ok((0, 1)), "17 1 S @ #0"), (Ok((0, 1)), "17 0 17 1 S @ #0 #0"), (Err(13), "17 0 @ #0"), (Err(13), "17 0 E #1 @"),
        (Err(13), "17 1 S @ #1 @"), (Err(13), "17 1 S 17 0 @ #0 #0"), (Err(12), "17 1 5 *4 @ #0"), (Err(13), "17 1 S 7 @ #0"),
    ] {
        ["18 38", "18 45"].iter().for_each(|function| cases.is(expected, &format!("h: 0 1 {}", expr.replace('@', function))));
    }
}

fn names(cases: &mut Cases) {
    let long = format!("'{}", "a".repeat(255));
    for (i, place) in ["N", "M", "B", "V", "W", "K"].iter().flat_map(|piece| places(piece, false)).enumerate() {
        cases.no(2, &place.with(1, "0"));
        cases.no(4, &place.with(1, ["'1z", "'par"][i % 2]));
        if i % 4 == 0 && !place.is_use() {
            cases.is(Ok(place.counts), &place.with(1, &long));
        }
    }
    for place in ["V", "W", "K"].iter().flat_map(|piece| places(piece, false)) {
        cases.no(10, &place.with(1, &long));
        let declared = format!("d: 'L *2 #1 {long} #0 v: {long} #0");
        cases.is(Ok((place.counts.0 + 2, place.counts.1)), &format!("{declared} {}", place.with(1, &long)));
    }
    for word in "lets Let check-sat-assumin asserts __ -1 ~!@$%^&*_-+=<>.?/".split(' ') {
        cases.is(Ok((1, 0)), &format!("k: '{word} S"));
    }
    for word in "let as _ ! match STRING assert check-sat-assuming set-option 0 a(b |a| :k a;b a\"b \u{e9} a\u{7f}".split(' ') {
        cases.no(4, &format!("k: '{word} S"));
    }
    ["k: 3 97 32 98 S", "k: 1 0 S", "k: 2 97 10 S", "k: 1 128 S"].iter().for_each(|words| cases.no(4, words));
    cases.no(2, "k: 255 97 98 S");
    let long = "97 ".repeat(256);
    cases.is(Ok((1, 1)), &format!("c: #256 {long} d: 'D 255 255 #1 'c #0 h: 0 1 3 #257 {long} 97"));
    cases.no(2, &format!("c: #257 {long}"));
    cases.is(Ok((0, 1)), &format!("h: 0 1 3 #257 {long} 34"));
    cases.no(4, &format!("h: 0 1 3 #258 34 {long} 31"));
    cases.just(Ok((0, 1)), &format!("h: 0 1 3 #59967 {}", "34 ".repeat(59_967)));
    for byte in [10, 31, 32, 34, 126, 127, 128] {
        let printable = (32..127).contains(&byte);
        cases.is(if printable { Ok((0, 0)) } else { Err(4) }, &format!("c: #0 #2 97 {byte}"));
        cases.is(if printable { Ok((0, 1)) } else { Err(4) }, &format!("h: 0 1 3 #1 {byte}"));
    }
}

fn faults(cases: &mut Cases) {
    for (i, place) in places("S", false).iter().chain(&places("S", true)).enumerate() {
        cases.no(12, &place.with(1, ["5 8 *3", "4 0"][i % 2]));
        if i % 3 == 0 {
            cases.is(Ok(place.counts), &place.with(1, "4 5 8 *3"));
        }
    }
    ["5 8 *3", "4 4 5 8 *3", "4 9 #0", "4 6 *2"].iter().for_each(|sort| cases.no(12, &format!("k: 'c {sort}")));
    for (i, place) in places("E", false).iter().chain(&places("E", true)).enumerate() {
        let (refusal, expr) = [(14, "6"), (13, "18 38"), (14, "17 1 S 6 #0"), (13, "18 45")][i % 4];
        cases.no(refusal, &place.with(1, expr));
    }
    for (inputs, args) in [(0, 1), (1, 0), (2, 1), (1, 2), (3, 3), (256, 0), (0, 256), (257, 1), (256, 256)] {
        let expected = if inputs == args { Ok((1, 0)) } else { Err(6) };
        cases.is(expected, &format!("f: 'f *2 #{inputs} {} S 1 #{args} {} E", "S ".repeat(inputs), "N ".repeat(args)));
    }
    for (expected, words) in [
        (Err(5), "d: 'D *2 #0"), (Err(5), "d: 'D 1 0 #1 'c #0 'E *2 #0"), (Err(14), "h: 1 #3 T 0 1 6 T"), (Err(14), "h: 2 'x S #1 1 6 T"),
        (Err(4), "k: 'c 11 'U #1 11 'as #0"), (Err(12), "k: 'c 11 'U #1 5 *4"), (Err(4), "h: 1 #2 T 2 'x S #1 0 'k #1 5 'let C"),
        // ForAlls
        (Err(7), "h: X X H"), (Err(7), "h: X X C"), (Err(7), "h: X Y X T"), (Err(7), "h: X 1 #2 T Y 1 #2 C X T"),
        (Err(7), "h: 1 #3 X C Y Y C T"), (Ok((0, 1)), "h: 1 #3 X C X T Y X H"), (Ok((0, 0)), "h: Y 1 #2 X C X T"),
        (Ok((0, 0)), "h: X 2 'xx S #0 2 'X S #0 C"), (Ok((0, 1)), "h: X 0 1 20 0 #1 'x S 16 'x E E"), (Ok((2, 0)), "k: 'c S 'c S h: X C"),
        // Several faults: the first judged is answered, wherever it stands
        (Err(4), "k: 'c 5 *4 F h: X X 0 0 'let #0"), (Err(4), "c: #1 10 F h: X X C"), (Err(4), "f: 'f *2 #1 S S 1 #0 5 '1"),
        (Err(4), "h: X X 0 0 'let #0"), (Err(4), "h: 2 'as S #0 2 'as S #0 C"), (Err(4), "k: 'c 4 11 'par #0"), (Err(12), "F v: 'k #1 4 0"),
        (Err(14), "F h: X X 0 1 6"), (Err(13), "f: 'f *2 #0 S 1 #1 N 18 38"), (Err(14), "h: X X 0 1 6"), (Err(12), "h: 0 1 17 1 4 0 18 38 #1 6"),
        (Err(2), "c: #1 10 k: 'c 5 *4 F h: 3"), (Err(2), "h: X X C 0"),
    ] {
        cases.is(expected, &words.replace('F', WRONG_ARGUMENTS));
    }
}

const WRONG_ARGUMENTS: &str = "f: 'f *2 #1 S S 1 #0 E";

/// A file for each kind of declared name, with `@` for the name, and the number of its declarations.
const NAMED: [(&str, usize); 8] = [
    ("k: @ S", 1), ("k: 'a S @ S 'b S", 3), ("f: @ *2 #0 S 0", 1), ("f: @ *2 #1 S S 1 #1 'y E", 1), ("d: 'D *2 #2 'c #0 @ #0", 1),
    ("d: 'A *2 #1 'a #0 'D *2 #1 'c #2 'f 0 @ S", 2), ("v: @ #0", 1), ("k: 'a S v: 'k #0 @ #1 S", 3),
];

/// ForAlls named like something declared.
fn clashes(cases: &mut Cases) {
    let long = "a".repeat(255);
    for (words, declarations) in NAMED {
        let with = |name: &str, constraint: &str| format!("{} h: {constraint}", words.replace('@', &format!("'{name}")));
        // With a head under it and without, in the last member of a Conj in a Conj, around another, deep below others
        let below: String = (0..254).map(|i| format!("2 'x{i} S #0 ")).collect();
        for constraint in ["X H", "X C", "X T", "1 #2 H X H", "1 #2 Y C 1 #3 C T Y 1 #1 X C", "X Y H", "2 'x S #1 P Y C", &format!("{below} X C")] {
            cases.no(15, &with("x", constraint));
        }
        // Names that differ: by a byte more or less, in case, in the last of two or of 255 bytes
        let other = format!("{}b", &long[1..]);
        for (name, binder) in [("x", "xx"), ("xx", "x"), ("x", "X"), ("xy", "xz"), ("BB", "Aa"), (&long, &other), (&long, &long[1..])] {
            cases.is(Ok((declarations, 1)), &with(name, &format!("2 '{binder} S #0 H")));
        }
        cases.no(15, &with(&long, &format!("2 '{long} S #0 H")));
        // 7 comes first, wherever it stands
        ["X X C", "X Y Y C", "1 #2 X C Y Y C", "1 #2 Y Y C X C"].iter().for_each(|constraint| cases.no(7, &with("x", constraint)));
    }
    for (expected, words) in [
        // The merge task
        (Err(15), "k: 'lim 0 h: 2 'x 0 #1 1 10 4 5 'x 5 'lim 2 'lim 0 #0 0 1 10 3 5 'lim 5 'x"),
        // Other names do not count: of a datatype, an argument, a Let, a Quantifier, and where a name is used
        (Ok((1, 1)), "d: 'x *2 #1 'c #0 h: X H"), (Ok((1, 1)), "f: 'f *2 #1 S S 1 #1 'x E h: X H"),
        (Ok((1, 1)), "f: 'f *2 #0 S 1 #0 16 'x E 5 'x h: X H"), (Ok((1, 1)), "f: 'f *2 #0 S 1 #0 20 0 #1 'x S 5 'x h: X H"),
        (Ok((0, 1)), "h: X 0 1 16 'x E E"), (Ok((0, 1)), "h: X 0 1 20 1 #2 'y S 'x S E"), (Err(10), "h: 2 'x S #1 0 'x #0 0 0 'x #1 5 'x"),
        (Ok((1, 1)), "k: 'c 11 'x #0 h: X H"), (Err(10), "h: X 0 1 19 'x E"), (Ok((2, 1)), "k: 'k S v: 'k #0 h: X H"),
        // Declared names as those of a Let, a Quantifier and an argument
        (Ok((1, 1)), "k: 'c S h: X 0 1 16 'c E 20 0 #1 'c S E"), (Ok((2, 0)), "k: 'c S f: 'f *2 #1 S S 1 #1 'c E"),
        (Err(15), "d: 'x *2 #1 'x #0 h: X C"), (Err(15), "d: 'x *2 #1 'c #0 v: 'x #0 h: X C"), (Err(15), "k: 'x S 'x S h: X C"),
        // Reading comes first
        (Err(2), "k: 'x S h: X 3"), (Err(2), "k: 'x S h: X C 0"), (Err(2), "k: 'x S 'y h: X C"),
    ] {
        cases.is(expected, words);
    }
}

/// Expressions in which the Var z is bound, and others in which it is free.
const BOUND: [&str; 8] = [
    "16 'z E 5 'z", "16 'y E 16 'z 5 'y 5 'z", "20 0 #1 'z S 5 'z", "20 1 #3 'y S 'z S 'x S 7 5 'z", "16 'z E 13 #2 16 'z 5 'z 5 'z 5 'z",
    "20 0 #1 'z S 13 #2 20 0 #1 'z S 5 'z 5 'z", "16 'z E 17 0 5 'z #1 19 W 5 'z", "20 0 #2 'z S 'z S 16 'z 5 'z 5 'z",
];
const FREE: [&str; 12] = [
    "5 'z", "16 'z 5 'z E", "13 #2 16 'z E 5 'z 5 'z", "13 #2 5 'z 16 'z E 5 'z", "20 0 #0 5 'z", "13 #2 20 1 #1 'z S 5 'z 5 'z",
    "16 'y 16 'z E 5 'z 5 'z", "17 0 5 'z #1 E", "17 1 S 5 'z #0", "19 W 5 'z", "15 E E 5 'z", "20 1 #1 'zz S 16 'Z E 5 'z",
];

/// Files with an expression for `@` where z is known, and where it is not, with their declarations and heads.
const KNOWN: [(&str, (usize, usize)); 9] = [
    ("k: 'z S h: 0 1 @", (1, 1)), ("d: 'D *2 #2 'c #0 'z #0 h: 0 1 @", (1, 1)), ("d: 'D *2 #1 'c #2 'f S 'z S h: 0 1 @", (1, 1)),
    ("f: 'z *2 #0 S 0 h: 0 1 @", (1, 1)), ("f: 'f *2 #0 S 0 'z *2 #1 S S 1 #1 'y E h: 0 1 @", (2, 1)),
    ("f: 'z *2 #0 S 0 'f *2 #0 S 1 #0 @", (2, 0)), ("f: 'f *2 #2 S S S 1 #2 'y 'z @", (1, 0)), ("h: 2 'z S #1 1 @ H", (0, 1)),
    ("h: 2 'z S #0 1 #2 T 2 'y S #1 P 0 1 @", (0, 1)),
];
const STRANGE: [(&str, (usize, usize)); 13] = [
    ("v: 'z #0 h: 0 1 @", (1, 1)), ("d: 'z *2 #1 'c #0 h: 0 1 @", (1, 1)), ("k: 'c 11 'z #0 h: 0 1 @", (1, 1)), ("f: 'z *2 #0 S 1 #0 @", (1, 0)),
    ("f: 'f *2 #0 S 1 #0 @ 'z *2 #0 S 0", (2, 0)), ("f: 'f *2 #1 S S 1 #1 'z E h: 0 1 @", (1, 1)),
    ("f: 'f *2 #1 S S 1 #1 'z E 'g *2 #0 S 1 #0 @", (2, 0)), ("f: 'g *2 #0 S 1 #0 @ 'f *2 #1 S S 1 #1 'z E", (2, 0)),
    ("h: 1 #2 2 'z S #0 H 0 1 @", (0, 2)), ("h: 1 #2 0 1 @ 2 'z S #0 H", (0, 2)), ("h: 2 'y S #1 1 @ 2 'z S #0 H", (0, 1)),
    ("h: 1 #2 2 'z S #1 P C 2 'y S #1 1 @ T", (0, 0)), ("f: 'f *2 #0 S 1 #0 16 'z E 5 'z h: 0 1 @", (1, 1)),
];

fn scopes(cases: &mut Cases) {
    for (words, counts) in KNOWN {
        BOUND.iter().chain(&FREE).for_each(|e| cases.is(Ok(counts), &words.replace('@', e)));
    }
    for (words, counts) in STRANGE {
        BOUND.iter().step_by(3).for_each(|e| cases.is(Ok(counts), &words.replace('@', e)));
        FREE.iter().for_each(|e| cases.no(10, &words.replace('@', e)));
    }
    // An unknown Var in each place of an expression
    places("E", false).iter().chain(&places("E", true)).for_each(|place| cases.no(10, &place.with(1, "5 'z")));
    // Names that are nearly declared, and words of the script
    let (long, other) = ("a".repeat(255), "a".repeat(254) + "b");
    for (name, used) in [("z", "zz"), ("zz", "z"), ("z", "Z"), ("zy", "zx"), ("BB", "Aa"), (&long, &other), (&long, &long[1..])] {
        cases.no(10, &format!("k: '{name} S h: 0 1 5 '{used}"));
        cases.no(10, &format!("d: 'D *2 #1 '{name} #0 h: 0 1 19 '{used} E"));
        cases.no(10, &format!("v: '{name} #0 h: 0 0 '{used} #0"));
        cases.is(Ok((1, 1)), &format!("k: '{name} S h: 0 1 5 '{name}"));
    }
    for word in "true false and or not = => + - Int Bool Array select HORN".split(' ') {
        cases.no(10, &format!("h: 0 1 5 '{word}"));
        cases.is(Ok((1, 1)), &format!("k: '{word} S h: 0 1 5 '{word}"));
    }
}

/// Names of IsCtors and KVar predicates, and numbers of a KVar's arguments. `n` is a constructor and a KVar.
fn applied(cases: &mut Cases) {
    for (expected, words) in [
        (Ok((0, 1)), "h: 0 1 19 'n E"), (Err(10), "h: 0 1 19 'z E"), (Err(10), "h: 0 1 19 'U E"), (Err(10), "k: 'z S h: 0 1 19 'z E"),
        (Err(10), "d: 'D *2 #1 'c #1 'z S h: 0 1 19 'z E"), (Err(10), "f: 'z *2 #0 S 0 h: 0 1 19 'z E"), (Err(10), "h: 0 1 19 'k E"),
        (Err(10), "h: 0 1 16 'z E 19 'z E"), (Err(10), "h: 0 1 20 0 #1 'z S 19 'z E"), (Err(10), "f: 'f *2 #1 S S 1 #1 'z 19 'z E"),
        (Ok((1, 0)), "f: 'f *2 #0 S 1 #0 19 'n E"),
        (Ok((0, 1)), "h: X 0 1 19 'n 5 'x"), (Ok((0, 1)), "h: 0 1 16 'n E 19 'n 5 'n"),
        (Ok((0, 1)), "h: 0 0 'n #0"), (Err(10), "h: 0 0 'z #0"), (Err(10), "h: 0 0 'U #0"), (Err(10), "k: 'z S h: 0 0 'z #0"),
        (Err(10), "f: 'z *2 #0 S 0 h: 2 'x S #1 0 'z #0 C"), (Err(10), "d: 'D *2 #1 'z #0 h: 0 0 'z #0"), (Err(10), "h: 0 0 'z #2 E E"),
        (Err(10), "h: 1 #2 T 2 'x S #2 P 0 'z #0 T"), (Err(10), "h: 0 0 'l #2 E 5 'z"), (Err(10), "h: 0 0 'l #3 E E 5 'z"),
        (Ok((0, 1)), "h: 0 0 'l #2 E E"), (Err(11), "h: 0 0 'l #1 E"), (Err(11), "h: 0 0 'l #0"), (Err(11), "h: 0 0 'l #3 E E E"),
        (Err(11), "h: 0 0 'k #1 E"), (Err(11), "h: 2 'x S #2 P 0 'k #1 5 'x C"), (Err(11), "h: 2 'x S #1 0 'l #0 T"),
        (Err(11), "h: 1 #3 H T 0 0 'n #1 E"),
        (Ok((2, 1)), "v: 'z #1 S 'z #2 S S h: 0 0 'z #1 E"), (Err(11), "v: 'z #1 S 'z #2 S S h: 0 0 'z #2 E E"),
        (Ok((2, 1)), "v: 'z #0 'z #1 S h: 0 0 'z #0"), (Err(11), "v: 'z #0 'z #1 S h: 0 0 'z #1 E"), (Ok((1, 1)), "v: 'l #0 h: 0 0 'l #2 E E"),
        (Err(11), "v: 'l #0 h: 0 0 'l #0"), (Err(10), "h: 1 #2 0 0 'k #1 E 0 0 'z #0"), (Err(10), "h: 1 #2 0 0 'z #0 0 0 'k #1 E"),
    ] {
        cases.is(expected, words);
    }
    for (sorts, args) in [(255, 255), (256, 256), (256, 0), (0, 256), (257, 1), (1, 257), (65_535, 0)] {
        let expected = if sorts == args { Ok((1, 1)) } else { Err(if sorts > 60_000 { 2 } else { 11 }) };
        cases.is(expected, &format!("v: 'z #{sorts} {} h: 0 0 'z #{args} {}", "S ".repeat(sorts.min(300)), "E ".repeat(args)));
    }
}
/// Two faults in one file, in both orders of place wherever both can be had: expressions stand behind all datatypes and ForAlls behind all else;
/// the place of 15 is the ForAll or the declaration.
fn pairs(cases: &mut Cases) {
    let front = [(4, "c: #1 10"), (5, "d: 'D *2 #0"), (12, "k: 'c 5 *4"), (13, "f: 'g *2 #0 S 1 #0 18 38"), (14, "f: 'g *2 #0 S 1 #0 6"),
        (6, WRONG_ARGUMENTS), (10, "f: 'g *2 #0 S 1 #0 5 'z")];
    let behind = [(4, "h: 0 1 5 'let"), (12, "h: 2 'x 5 *4 #0 C"), (13, "h: 0 1 18 45"), (14, "h: 0 1 6"), (7, "h: X X C"),
        (15, "v: 'x #0 h: X C"), (6, WRONG_ARGUMENTS), (10, "h: 0 1 5 'z"), (11, "h: 0 0 'k #1 E")];
    let apart = front.iter().flat_map(|a| behind.iter().map(move |b| (a.0, b.0, format!("{} {}", a.1, b.1))));
    let beside = [
        (4, 5, "c: #1 10 d: 'D *2 #0"), (4, 5, "d: 'as *2 #1 'a #0 'D *2 #0"), (12, 5, "d: 'A *2 #1 'a #1 'f 5 *4 'D *2 #0"),
        (7, 4, "h: X X 0 1 5 'let"), (7, 12, "h: X 2 'x 4 0 #0 C"), (7, 13, "h: X X 0 1 18 38"), (7, 14, "h: X X 0 1 6"),
        (15, 4, "k: 'x S h: X 0 1 5 'let"), (15, 5, "d: 'A *2 #1 'x #0 'D *2 #0 h: X C"), (15, 12, "k: 'x S h: X 2 'y 4 0 #0 C"),
        (15, 13, "k: 'x S h: X 0 1 18 38"), (15, 14, "k: 'x S h: X 0 1 6"), (15, 6, "f: 'x *2 #0 S 0 'f *2 #1 S S 1 #0 E h: X C"),
        (15, 7, "k: 'x S h: X Y Y C"), (7, 15, "k: 'x S h: Y Y X C"), (7, 10, "h: X X 0 1 5 'z"), (10, 7, "h: 1 #2 0 1 5 'z X X C"),
        (15, 10, "k: 'x S h: X 0 1 5 'z"), (10, 15, "k: 'x S h: 1 #2 0 1 5 'z X C"), (10, 12, "h: 1 #2 0 1 5 'z 2 'x 4 0 #0 C"),
        (10, 13, "h: 0 1 13 #2 5 'z 18 38"), (10, 14, "h: 0 1 13 #2 5 'z 6"), (10, 4, "h: 0 1 13 #2 5 'z 5 'let"),
        (11, 4, "h: 1 #2 0 0 'k #1 E 0 1 5 'let"), (11, 12, "h: 1 #2 0 0 'k #1 E 2 'x 4 0 #0 C"), (11, 13, "h: 0 0 'k #1 18 38"),
        (11, 14, "h: 0 0 'k #1 6"), (7, 11, "h: X X 0 0 'k #1 E"), (11, 7, "h: 1 #2 0 0 'k #1 E X X C"), (15, 11, "k: 'x S h: X 0 0 'k #1 E"),
        (11, 15, "k: 'x S h: 1 #2 0 0 'k #1 E X C"), (10, 11, "h: 1 #2 0 1 5 'z 0 0 'k #1 E"), (11, 10, "h: 1 #2 0 0 'k #1 E 0 1 5 'z"),
        (11, 10, "h: 0 0 'l #3 E 5 'z E"),
    ];
    for (a, b, words) in apart.chain(beside.map(|(a, b, words)| (a, b, words.to_string()))) {
        cases.no(*JUDGED.iter().find(|refusal| [a, b].contains(refusal)).expect("judged"), &words);
    }
}

fn levels(cases: &mut Cases) {
    // One form around itself: as deep as can be, and a level deeper with the piece there, with a wrong code, with the section's end
    let shown = ["7 S S", "8 1 0 S", "9 #1 S", "7 E", "8 E", "13 #1 E", "15 E E E", "16 N E E", "17 0 E #1 E", "20 0 #0 E", "1 #2 C C"];
    for kind in ["S", "E", "C"] {
        for place in places(kind, true).iter().filter(|place| !place.form.contains('B')) {
            let (fits, first) = (DEEPEST - place.level, !place.own[0].contains(kind));
            if first || shown.contains(&place.form) {
                cases.no(3, &place.with(fits + 1, kind));
            }
            if first && shown.contains(&place.form) {
                cases.is(Ok(place.counts), &place.with(fits, kind));
                cases.no(3, &place.with(fits + 1, "255"));
                cases.no(3, &[place.file[0], &place.own[0].repeat(fits + 1)].concat());
            }
        }
    }
    // One form around another kind's piece
    for (kind, before, leaf) in [("S", "9 #1 ", "9 #0"), ("E", "7 ", "13 #0")] {
        for place in places(kind, false) {
            cases.is(Ok(place.counts), &place.with(1, &(before.repeat(255 - place.level) + leaf)));
            cases.no(3, &place.with(1, &(before.repeat(256 - place.level) + leaf)));
        }
    }
}

/// What stands before a piece at level 257, and what stands there.
fn last_levels(cases: &mut Cases) {
    for (expected, times, before, inner) in [
        // BitVecs get 12 where they are not too deep
        (Err(12), 255, "4 ", "0"), (Err(3), 256, "4 ", "0"), (Err(3), 256, "4 ", "255"), (Err(3), 256, "4 ", ""),
        (Ok((1, 0)), 254, "9 #1 ", "4 5 *4"), (Err(3), 255, "9 #1 ", "4 5 *4"), (Err(2), 255, "9 #1 ", "8 0"),
    ] {
        cases.is(expected, &format!("k: 'c {} {inner}", before.repeat(times)));
    }
    // An expression at level 256: what stands before its first child comes first
    for (refusal, expr) in [
        (2, "9 5"), (2, "10"), (2, "16 0"), (2, "17 2"), (2, "13 1"), (2, "20 2"), (2, "20 0 #1 0"), (2, "18 48"), (2, "19 2 99"), (14, "6"),
        (3, "9 0"), (3, "16 'v"), (3, "17 1"), (3, "14 #65535"), (3, "20 0 #1 'q"),
    ] {
        cases.no(refusal, &format!("f: 'f *2 #0 S 1 #0 {} {expr}", "7 ".repeat(255)));
    }
    // Under Conjs: a head's predicate is one deeper than its constraint, the predicate's expressions two
    for (expected, conjs, inner) in [
        (Ok((0, 1)), 254, "H"), (Err(3), 255, "H"), (Err(3), 255, "0"), (Err(3), 255, "0 2"), (Err(2), 254, "0 0 0"),
        (Ok((0, 1)), 253, "0 1 E"), (Err(3), 254, "0 1 E"), (Err(3), 254, "0 1"), (Err(3), 254, "0 1 255"), (Err(3), 254, "0 0 'k #1 E"),
        (Ok((0, 0)), 254, "2 'x S #1 P C"), (Err(3), 254, "2 'x S #1 1 E C"), (Err(3), 254, "2 'x 9 #1 S #0 C"), (Err(3), 254, "X H"),
        (Err(3), 255, "X C"), (Err(3), 255, "2 'x"), (Err(2), 255, "2 0"), (Err(2), 255, "2 2 120"),
    ] {
        cases.is(expected, &format!("h: {} {inner}", "1 #1 ".repeat(conjs)));
    }
    // Under ForAlls with names of their own
    for (expected, many, inner) in [
        (Ok((0, 0)), 255, "C"), (Err(3), 256, "C"), (Ok((0, 1)), 254, "H"), (Err(3), 255, "H"), (Ok((0, 1)), 253, "0 1 E"),
        (Err(7), 254, "2 'x0 S #0 C"), (Err(7), 254, "2 'x253 S #0 C"), (Ok((0, 0)), 254, "2 'x254 S #0 C"), (Err(3), 255, "2 'x0 S #0 C"),
    ] {
        let around: String = (0..many).map(|i| format!("2 'x{i} S #0 ")).collect();
        cases.is(expected, &format!("h: {around} {inner}"));
    }
}

/// 2 and 3 in one file: the first met; and 3 before any fault.
fn first_met(cases: &mut Cases) {
    for (refusal, words) in [
        (2, "h: 1 #2 3 @"), (3, "h: 1 #2 @ 3"), (3, "h: @ C 0"), (3, "k: 'c % h: 3"), (2, "c: #2 97 k: 'c %"), (2, "k: 'c 12 h: @"),
        (3, "c: #1 10 k: 'c 5 *4 h: @"), (3, "h: X X @"), (3, "k: 'x S h: X @"), (2, "h: C @"),
    ] {
        cases.no(refusal, &words.replace('@', &"1 #1 ".repeat(256)).replace('%', &"9 #1 ".repeat(256)));
    }
}

fn cuts(cases: &mut Cases) {
    // Each form without its last byte
    for (_, file, _, forms, _) in KINDS {
        for form in forms.iter().filter(|form| !form.ends_with(char::is_uppercase)) {
            let (mut sections, cut) = (sections(&file.replace('@', form)), "cdkfvh".find(&file[..1]).unwrap());
            sections[cut].pop();
            cases.file(Err(2), &joined(&sections));
        }
    }
    // The rich file with one section cut: 2 unless an item ends there
    let items = rich();
    let whole: Vec<Vec<u8>> = items.iter().map(|items| bytes(&items.join(" "))).collect();
    for (i, section) in whole.iter().enumerate() {
        let first = bytes(&items[i][0]).len();
        for cut in (0..section.len()).filter(|cut| cut % 19 == 1 || *cut == first) {
            let sections = [&whole[..i], &[section[..cut].to_vec()], &whole[i + 1..]].concat();
            let expected = if cut == first { Ok((8 - (i > 0) as usize, 2)) } else { Err(2) };
            cases.file(expected, &joined(&sections));
        }
    }
}

/// Makes pieces by chance; one in three of the kinds in `spoil` is made faulty. `known` are the names that a Var may have.
struct Maker { chance: Chance, spoil: &'static str, heads: usize, known: Vec<String> }

impl Maker {
    /// A name in words.
    fn name(&mut self, letter: &str, spoilt: bool, around: usize) -> String {
        match letter {
            "N" if spoilt => "'0".to_string(),
            "N" => ["'x", "'k0", "'Cons", "'<=>", "'b0"][self.chance.below(5)].to_string(),
            "M" if spoilt => "'b0".to_string(),
            "M" => ["'x", "'k0", "'Cons", "'<=>"][self.chance.below(4)].to_string(),
            "B" => format!("'b{}", if spoilt { 0 } else { around }),
            "V" if !spoilt => self.known[self.chance.below(self.known.len())].clone(),
            "V" => ["'x", "'k0", "'<=>", "'k", "'U", "'true"][self.chance.below(6)].to_string(),
            _ => if spoilt { "'U" } else { "'n" }.to_string(),
        }
    }

    /// A piece in words, at most `depth` deep in its kind, under as many ForAlls as `around` says.
    fn piece(&mut self, letter: &str, depth: usize, around: usize) -> String {
        let spoilt = self.spoil.contains(letter) && self.chance.below(3) == 0;
        match letter {
            "N" | "M" | "B" | "V" | "W" | "K" => return self.name(letter, spoilt, around),
            "S" | "E" | "P" | "C" | "c" | "d" | "k" | "f" | "v" => {}
            _ => return letter.to_string(),
        }
        let &(_, _, _, sound, faulty) = KINDS.iter().find(|kind| kind.0 == letter).unwrap();
        let fits = |form: &&str| if form.contains(letter) { depth > 0 } else { depth < 3 || letter != "C" };
        let forms: Vec<&str> = if spoilt { faulty } else { sound }.iter().copied().filter(fits).collect();
        let form = forms[self.chance.below(forms.len())];
        let words = self.words(form, depth.saturating_sub(1), around);
        self.heads += (form == "0 P" && words[1] != "1 1 1") as usize;
        words.join(" ")
    }

    /// The words of a form. Its names are known from the next piece on, that of a Let behind its first operand.
    fn words(&mut self, form: &str, depth: usize, around: usize) -> Vec<String> {
        let (outer, mut made) = (self.known.len(), Vec::new());
        for word in form.split(' ') {
            let piece = self.piece(word, depth, around + (word == "C" && form.contains('B')) as usize);
            made.push(piece);
            match word {
                "N" | "B" | "'q" if form != "16 N E E" => self.known.extend(made.last().cloned()),
                "E" if form == "16 N E E" && self.known.len() == outer => self.known.push(made[1].clone()),
                _ => {}
            }
        }
        self.known.truncate(outer);
        made
    }

    /// A file's sections, its declarations and heads.
    fn task(&mut self) -> (Vec<Vec<u8>>, (usize, usize)) {
        let items = ["c", "d", "k", "f", "v"].map(|kind| (0..self.chance.below(3)).map(|_| self.piece(kind, 3, 0)).collect::<Vec<_>>());
        self.heads = 0;
        let constraint = self.piece("C", 4, 0);
        let named = |(letter, items): (char, &Vec<String>)| format!("{letter}: {} ", items.join(" "));
        let words: String = "cdkfv".chars().zip(&items).map(named).collect();
        let declarations = items[1..].iter().map(Vec::len).sum::<usize>();
        (closed(&format!("{words} h: {constraint}")), (declarations + MANY_DECLARED, self.heads))
    }
}

fn by_chance(cases: &mut Cases) {
    let mut maker = Maker { chance: Chance::new(SEED), spoil: "", heads: 0, known: vec!["'n".to_string()] };
    let mut made = Vec::new();
    for _ in 0..120 {
        let (sections, counts) = maker.task();
        cases.file(Ok(counts), &joined(&sections));
        made.push((sections.concat(), offsets(&sections)));
    }
    for i in 0..120 {
        // One byte changed, removed or inserted, and the offsets behind it moved along if it is in the sections
        let (body, offsets) = &made[i];
        let mut file = sealed(body, *offsets);
        let (chance, length) = (&mut maker.chance, file.len());
        let at = chance.below(length);
        let byte = [file[at] ^ 1, file[at].wrapping_add(1), chance.below(22) as u8, chance.below(256) as u8][chance.below(4)];
        let (gone, new) = [(1, 1), (1, 1), (1, 0), (0, 1)][i % 4];
        file.splice(at..at + gone, vec![byte; new]);
        if at < body.len() {
            file = sealed(&file[..body.len() + new - gone], offsets.map(|o| if o > at { o + new - gone } else { o }));
        }
        let _ = cases.answer(&file);
    }
    for spoil in ["c", "d", "f", "B", "N", "S", "E", "P", "fB", "fB", "fE", "NB", "dkvSEB", "cdkfvNSEPB", "M", "M", "MB",
        "fM", "NM", "SEM", "dkfvMB", "V", "V", "W", "K", "VWK", "VB", "VM", "fV", "PV"].repeat(3) {
        maker.spoil = spoil;
        let _ = cases.answer(&joined(&maker.task().0));
    }
}

fn main() -> io::Result<()> {
    let directory = env::args().nth(1).expect("the directory to write into");
    let mut cases = Cases::default();
    for group in [limits, codes, names, faults, clashes, scopes, applied, pairs, levels, last_levels, first_met, cuts, by_chance] {
        group(&mut cases);
    }
    let (counts, files) = (cases.counts, cases.stdout.lines().count());
    let refused = [1, 2, 3].iter().chain(&JUDGED).map(|refusal| (*refusal, counts[*refusal as usize]));
    eprintln!("{files} files: accepted {}, refused {:?}", counts[0], refused.clone().collect::<Vec<_>>());
    assert!(counts[0] >= 8 && refused.clone().all(|(_, count)| count >= 8) && counts[0] + refused.map(|(_, count)| count).sum::<usize>() == files);
    fs::write(Path::new(&directory).join("stdin"), cases.stdin)?;
    fs::write(Path::new(&directory).join("stdout"), cases.stdout)
}
