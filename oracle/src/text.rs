//! What is written for a task: the source's `smt_fmt.rs` and `smt_horn.rs`, function by function, with `SmtOptions::HORN`, and with the names
//! that the set functions have in an edition.
//!
//! `rendered` is the whole way from a file to its script or its refusal, with nothing else in it.
use crate::task::*;
use std::collections::HashSet;
use std::fmt::{Display, Write};

/// Whose names the set functions have in a script (W-205).
#[derive(Debug, Clone, Copy, PartialEq, Eq)]
pub enum Edition { Z3, Cvc5 }

impl Edition {
    pub const BOTH: [Edition; 2] = [Edition::Z3, Edition::Cvc5];

    /// What a theory function is called.
    pub fn name(self, function: usize) -> &'static str {
        match (self, THEORY[function]) {
            (Edition::Cvc5, "emptyset") => "set.empty",
            (Edition::Cvc5, "singleton") => "set.singleton",
            (Edition::Cvc5, "union") => "set.union",
            (Edition::Cvc5, "intersection") => "set.inter",
            (Edition::Cvc5, "setminus") => "set.minus",
            (Edition::Cvc5, "member") => "set.member",
            (Edition::Cvc5, "subset") => "set.subset",
            (_, name) => name,
        }
    }
}

/// A script, where each of its parts ends, and the number of its assertions.
pub struct Rendering { pub script: String, pub ends: Vec<usize>, pub assertions: usize }

impl Rendering {
    /// Where part i begins, or where the script ends if i is the number of parts.
    pub fn start(&self, i: usize) -> usize { if i == 0 { 0 } else { self.ends[i - 1] } }
    pub fn part(&self, i: usize) -> &str { &self.script[self.start(i)..self.ends[i]] }
    pub fn longest(&self) -> usize { (0..self.ends.len()).map(|i| self.part(i).len()).max().unwrap_or(0) }

    /// The parts of a run joined, and the length of each; or 8 if it passes the last part, then 9 if the text or the parts have no room (W-204).
    pub fn run(&self, run: &Run) -> Answer<(&str, Vec<u32>)> {
        if run.passes(self.ends.len()) {
            return Err(8);
        }
        let parts = run.first..run.first + run.count;
        let text = &self.script[self.start(parts.start)..self.start(parts.end)];
        if text.len() > run.room || run.count > run.places {
            return Err(9);
        }
        Ok((text, parts.map(|i| self.part(i).len() as u32).collect()))
    }
}

/// What a run is asked for: parts from the first on, so many of them, into a buffer of so many bytes and a table of so many places.
#[derive(Debug, Clone, Copy)]
pub struct Run { pub first: usize, pub count: usize, pub room: usize, pub places: usize }

impl Run {
    /// Whether it passes the last of so many parts. The sum is that of numbers: two of 64 bits have one of 128.
    pub fn passes(&self, parts: usize) -> bool { self.first as u128 + self.count as u128 > parts as u128 }
}

/// The script of a file, or its refusal.
pub fn rendered(file: &[u8], edition: Edition) -> Answer<Rendering> { accepted(file).map(|task| write_smt_horn(&task, edition)) }

/// The four numbers of the survey in a line.
pub fn sizes(rendering: &Rendering) -> String {
    let (parts, bytes, longest) = (rendering.ends.len(), rendering.script.len(), rendering.longest());
    format!("{parts} parts, {} assertions, {bytes} bytes, longest {longest}", rendering.assertions)
}

/// An answer in a line: these numbers, or the refusal.
pub fn line(answer: &Answer<Rendering>) -> String {
    match answer {
        Ok(rendering) => sizes(rendering),
        Err(refusal) => format!("refused {refusal}"),
    }
}

// ---- Sorts, expressions, predicates and declarations

fn number(out: &mut String, number: impl Display) { write!(out, "{number}").expect("a String takes every text") }

/// A string between quotation marks, each quotation mark of its own twice (W-203).
fn write_string(out: &mut String, text: &str) {
    for (i, run) in text.split('"').enumerate() {
        out.push_str(if i == 0 { "\"" } else { "\"\"" });
        out.push_str(run);
    }
    out.push('"');
}

/// Each item with a space before it.
fn spaced<T>(out: &mut String, items: impl IntoIterator<Item = T>, mut write_item: impl FnMut(&mut String, T)) {
    for item in items {
        out.push(' ');
        write_item(out, item);
    }
}

/// The items in parentheses, with a space between two.
fn sexp_list<T>(out: &mut String, items: impl IntoIterator<Item = T>, mut write_item: impl FnMut(&mut String, T)) {
    let mut items = items.into_iter();
    out.push('(');
    if let Some(first) = items.next() {
        write_item(out, first);
    }
    spaced(out, items, write_item);
    out.push(')');
}

/// Knows the edition, and what the datatype section declares: names of constructors and names of sorts.
pub(crate) struct SmtEncoder<'a> { edition: Edition, constructors: HashSet<&'a str>, datatypes: HashSet<&'a str> }

impl<'a> SmtEncoder<'a> {
    pub fn new(datatypes: &[Datatype<'a>], edition: Edition) -> Self {
        let constructors = datatypes.iter().flat_map(|datatype| datatype.ctors.iter().map(|ctor| ctor.name)).collect();
        SmtEncoder { edition, constructors, datatypes: datatypes.iter().map(|datatype| datatype.name).collect() }
    }

    fn write_datatype_decl(&self, out: &mut String, datatype: &Datatype) {
        out.push_str("(declare-datatypes ((");
        out.push_str(datatype.name);
        out.push(' ');
        number(out, datatype.vars);
        out.push_str(")) (");
        if datatype.vars > 0 {
            out.push_str("(par ");
            sexp_list(out, 0..datatype.vars, |out, i| {
                out.push('T');
                number(out, i);
            });
            out.push(' ');
        }
        self.write_datatype_ctors(out, &datatype.ctors);
        out.push_str(if datatype.vars > 0 { ")))\n" } else { "))\n" });
    }

    fn write_datatype_ctors(&self, out: &mut String, ctors: &[Ctor]) {
        sexp_list(out, ctors, |out, ctor| {
            out.push('(');
            out.push_str(ctor.name);
            spaced(out, &ctor.fields, |out, (name, sort)| self.write_binder(out, name, sort));
            out.push(')');
        });
    }

    /// A name and its sort in parentheses.
    fn write_binder(&self, out: &mut String, name: &str, sort: &Sort) {
        out.push('(');
        out.push_str(name);
        out.push(' ');
        self.write_sort(out, sort);
        out.push(')');
    }

    fn write_const_decl(&self, out: &mut String, name: &str, sort: &Sort) {
        out.push_str("(declare-const ");
        out.push_str(name);
        out.push(' ');
        self.write_sort(out, sort);
        out.push_str(")\n");
    }

    fn write_fun_def(&self, out: &mut String, function: &Function) {
        out.push_str(if function.body.is_some() { "(define-fun " } else { "(declare-fun " });
        out.push_str(function.name);
        out.push(' ');
        match &function.body {
            Some(body) => sexp_list(out, body.args.iter().zip(&function.inputs), |out, (name, sort)| self.write_binder(out, name, sort)),
            None => sexp_list(out, &function.inputs, |out, sort| self.write_sort(out, sort)),
        }
        out.push(' ');
        self.write_sort(out, &function.output);
        if let Some(body) = &function.body {
            out.push(' ');
            self.write_expr(out, &body.expr);
        }
        out.push_str(")\n");
    }

    pub fn write_sort(&self, out: &mut String, sort: &Sort) {
        match sort {
            Sort::Int => out.push_str("Int"),
            Sort::Bool => out.push_str("Bool"),
            Sort::Real => out.push_str("Real"),
            Sort::Str => out.push_str("String"),
            Sort::BitVec(size) => {
                let Sort::BvSize(size) = **size else { panic!("a BitVec of something other than a width") };
                out.push_str("(_ BitVec ");
                number(out, size);
                out.push(')');
            }
            Sort::BvSize(_) => panic!("a width in place of a sort"),
            Sort::Var(i) => {
                out.push('T');
                number(out, i);
            }
            Sort::Func(sorts) => {
                out.push_str("(Array");
                spaced(out, sorts.iter(), |out, sort| self.write_sort(out, sort));
                out.push(')');
            }
            Sort::Abs(_, inner) => self.write_sort(out, inner),
            Sort::App(SortCtor::Data(name), _) if !self.datatypes.contains(name) => out.push_str("Int"),
            Sort::App(ctor, args) if args.is_empty() => write_sort_ctor(out, ctor),
            Sort::App(ctor, args) => {
                out.push('(');
                write_sort_ctor(out, ctor);
                spaced(out, args, |out, sort| self.write_sort(out, sort));
                out.push(')');
            }
        }
    }

    pub fn write_pred(&self, out: &mut String, pred: &Pred) {
        match pred {
            Pred::Expr(e) => self.write_expr(out, e),
            Pred::KVar(name, args) => self.write_applied(out, args, |out| out.push_str(name)),
        }
    }

    /// A head with its arguments in parentheses; without arguments the head is bare.
    fn write_applied(&self, out: &mut String, args: &[Expr], write_head: impl FnOnce(&mut String)) {
        if args.is_empty() {
            return write_head(out);
        }
        out.push('(');
        write_head(out);
        self.write_rest(out, args);
    }

    /// Operands, and the parenthesis that closes their list.
    fn write_rest(&self, out: &mut String, operands: &[Expr]) {
        spaced(out, operands, |out, operand| self.write_expr(out, operand));
        out.push(')');
    }

    /// An operation with one operand or more.
    fn write_operation(&self, out: &mut String, word: &str, operands: &[Expr]) {
        out.push('(');
        out.push_str(word);
        self.write_rest(out, operands);
    }

    fn write_nary(&self, out: &mut String, word: &str, members: &[Expr], empty: &str) {
        if members.is_empty() { out.push_str(empty) } else { self.write_operation(out, word, members) }
    }

    fn write_expr(&self, out: &mut String, expr: &Expr) {
        match expr {
            Expr::Numeral(value) => number(out, value),
            Expr::Boolean(value) => out.push_str(if *value { "true" } else { "false" }),
            Expr::Real(value) => number(out, value),
            Expr::String(text) => write_string(out, text),
            Expr::BitVec(value, width) => write!(out, "(_ bv{value} {width})").expect("a String takes every text"),
            Expr::Var(name) => out.push_str(name),
            Expr::WKVar => panic!("a weak KVar"),
            Expr::Neg(operand) => self.write_operation(out, "-", std::slice::from_ref(operand)),
            Expr::Not(operand) => self.write_operation(out, "not", std::slice::from_ref(operand)),
            Expr::BinaryOp(code, operands) => self.write_operation(out, OPERATIONS[*code], &operands[..]),
            Expr::Atom(NE, operands) => {
                out.push_str("(not ");
                self.write_operation(out, "=", &operands[..]);
                out.push(')');
            }
            Expr::Atom(code, operands) => self.write_operation(out, RELATIONS[*code], &operands[..]),
            Expr::Imp(operands) => self.write_operation(out, "=>", &operands[..]),
            Expr::Iff(operands) => self.write_operation(out, "=", &operands[..]),
            Expr::And(members) => self.write_nary(out, "and", members, "true"),
            Expr::Or(members) => self.write_nary(out, "or", members, "false"),
            Expr::IfThenElse(operands) => self.write_operation(out, "ite", &operands[..]),
            Expr::Let(name, operands) => self.write_let(out, name, operands),
            Expr::App(head, args, sort) => self.write_applied(out, args, |out| self.write_application_head(out, head, sort.as_ref())),
            Expr::ThyFunc(function, width) => self.write_thy_func(out, *function, *width),
            Expr::IsCtor(name, operand) => {
                out.push_str("((_ is ");
                out.push_str(name);
                out.push(')');
                self.write_rest(out, std::slice::from_ref(operand));
            }
            Expr::Quantifier(code, binders, body) => self.write_quantifier(out, QUANTIFIERS[*code], binders, body),
        }
    }

    fn write_let(&self, out: &mut String, name: &str, [value, body]: &[Expr; 2]) {
        out.push_str("(let ((");
        out.push_str(name);
        out.push(' ');
        self.write_expr(out, value);
        out.push_str("))");
        self.write_rest(out, std::slice::from_ref(body));
    }

    fn write_quantifier(&self, out: &mut String, word: &str, binders: &[Binder], body: &Expr) {
        out.push('(');
        out.push_str(word);
        out.push(' ');
        sexp_list(out, binders, |out, (name, sort)| self.write_binder(out, name, sort));
        self.write_rest(out, std::slice::from_ref(body));
    }

    /// The head of an App. A declared constructor and the two functions that need it are written with the output sort.
    fn write_application_head(&self, out: &mut String, head: &Expr, sort: Option<&Sort>) {
        let (word, sort) = match (head, sort) {
            (Expr::Var(name), Some(sort)) if self.constructors.contains(name) => (*name, sort),
            (Expr::ThyFunc(function @ (SET_EMPTY | MAP_DEFAULT), _), Some(sort)) => (self.edition.name(*function), sort),
            _ => return self.write_expr(out, head),
        };
        out.push_str("(as ");
        out.push_str(word);
        out.push(' ');
        self.write_sort(out, sort);
        out.push(')');
    }

    fn write_thy_func(&self, out: &mut String, function: usize, width: u8) {
        match function {
            ZERO_EXTEND | SIGN_EXTEND => write!(out, "(_ {} {width})", THEORY[function]).expect("a String takes every text"),
            SET_EMPTY | MAP_DEFAULT => panic!("a function without its sort"),
            _ => out.push_str(self.edition.name(function)),
        }
    }
}

fn write_sort_ctor(out: &mut String, ctor: &SortCtor) {
    out.push_str(match ctor {
        SortCtor::Set => "Set",
        SortCtor::Map => "Array",
        SortCtor::Data(name) => name,
    });
}

// ---- Assertions and the whole script

/// A head with the binders and the guards of the ForAlls around it.
pub(crate) struct HornClause<'t, 'a> { pub vars: Vec<&'t Binder<'a>>, pub guards: Vec<&'t Pred<'a>>, pub head: &'t Pred<'a> }

fn flatten_constraint<'t, 'a>(
    constraint: &'t Constraint<'a>, vars: &mut Vec<&'t Binder<'a>>, guards: &mut Vec<&'t Pred<'a>>, clauses: &mut Vec<HornClause<'t, 'a>>,
) {
    match constraint {
        Constraint::ForAll(binder, preds, body) => {
            let before = guards.len();
            vars.push(binder);
            guards.extend(preds.iter().filter(|pred| !pred.is_trivially_true()));
            flatten_constraint(body, vars, guards, clauses);
            guards.truncate(before);
            vars.pop();
        }
        Constraint::Conj(members) => members.iter().for_each(|member| flatten_constraint(member, vars, guards, clauses)),
        Constraint::Pred(head) if head.is_trivially_true() => {}
        Constraint::Pred(head) => clauses.push(HornClause { vars: vars.clone(), guards: guards.clone(), head }),
    }
}

/// The clauses of a constraint, in the order of the heads.
pub(crate) fn clauses<'t, 'a>(constraint: &'t Constraint<'a>) -> Vec<HornClause<'t, 'a>> {
    let mut clauses = Vec::new();
    flatten_constraint(constraint, &mut Vec::new(), &mut Vec::new(), &mut clauses);
    clauses
}

impl SmtEncoder<'_> {
    fn write_kvar_decl(&self, out: &mut String, kvar: &KVar) {
        out.push_str("(declare-fun ");
        out.push_str(kvar.name);
        out.push(' ');
        sexp_list(out, &kvar.sorts, |out, sort| self.write_sort(out, sort));
        out.push_str(" Bool)\n");
    }

    fn write_assert(&self, out: &mut String, HornClause { vars, guards, head }: &HornClause) {
        out.push_str("(assert ");
        if !vars.is_empty() {
            out.push_str("(forall (");
            vars.iter().for_each(|(name, sort)| self.write_binder(out, name, sort));
            out.push_str(") ");
        }
        out.push_str("(=> ");
        match head {
            Pred::KVar(..) => {
                self.write_guard_conjunction(out, guards);
                out.push(' ');
                self.write_pred(out, head);
                out.push(')');
            }
            Pred::Expr(e) => {
                if !guards.is_empty() {
                    out.push_str("(and");
                    spaced(out, guards, |out, guard| self.write_pred(out, guard));
                    out.push(' ');
                }
                self.write_operation(out, "not", std::slice::from_ref(e));
                out.push_str(if guards.is_empty() { " false)" } else { ") false)" });
            }
        }
        out.push_str(if vars.is_empty() { ")\n" } else { "))\n" });
    }

    fn write_guard_conjunction(&self, out: &mut String, guards: &[&Pred]) {
        match guards {
            [] => out.push_str("true"),
            [guard] => self.write_pred(out, guard),
            _ => {
                out.push_str("(and");
                spaced(out, guards, |out, guard| self.write_pred(out, guard));
                out.push(')');
            }
        }
    }
}

/// The script: an opening through the comments, the declarations, a blank line, the assertions, and `(check-sat)` behind a blank line.
pub fn write_smt_horn(task: &Task, edition: Edition) -> Rendering {
    let encoder = SmtEncoder::new(&task.datatypes, edition);
    let (mut out, mut ends) = (String::from("(set-logic HORN)\n\n"), Vec::new());
    for line in &task.comments {
        out.push_str(";; ");
        out.push_str(line);
        out.push('\n');
    }
    out.push_str(if task.comments.is_empty() { "" } else { "\n" });
    ends.push(out.len());
    for datatype in &task.datatypes {
        encoder.write_datatype_decl(&mut out, datatype);
        ends.push(out.len());
    }
    for (name, sort) in &task.constants {
        encoder.write_const_decl(&mut out, name, sort);
        ends.push(out.len());
    }
    for function in &task.functions {
        encoder.write_fun_def(&mut out, function);
        ends.push(out.len());
    }
    for kvar in &task.kvars {
        encoder.write_kvar_decl(&mut out, kvar);
        ends.push(out.len());
    }
    out.push('\n');
    ends.push(out.len());

    let clauses = clauses(&task.constraint);
    for clause in &clauses {
        encoder.write_assert(&mut out, clause);
        ends.push(out.len());
    }
    out.push_str("\n(check-sat)\n");
    ends.push(out.len());
    Rendering { script: out, ends, assertions: clauses.len() }
}
