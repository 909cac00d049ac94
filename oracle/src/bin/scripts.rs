//! Makes the files that `crates/hornscripts` is fed and the answers it has to give, by the rendering of this package.
//!
//!     cargo run --release --manifest-path oracle/Cargo.toml --target-dir target/cargo --bin scripts -- crates/hornscripts
//!
//! It writes two files into the directory named. `stdin` has the test files, each behind its length (4 bytes, little-endian). `stdout` has
//! for each of them a head line and then what `hornscript` writes: the script, or the line `refused N`. The head line is
//! `file I: P parts, A assertions, L bytes, longest M`, or `file I: refused N` for a file that is refused. An accepted one with a part above
//! 65,536 bytes has the first kind of head line and then `refused 9`.
//! Most files carry the commands, the longest part or the refusal they were made for, and the run stops where the rendering disagrees.
//! Those made by chance carry none; they have to be accepted. Those damaged by chance may get any answer.
use oracle::chance::{Chance, SEED};
use oracle::check::checked;
use oracle::draft::{Draft, Plan};
use oracle::limits::{nested, ACCIDENT, TABLE};
use oracle::task::{trailer, Answer, LONGEST_FILE, MAP_DEFAULT, REFUSALS, SET_EMPTY, SIGN_EXTEND, THEORY, TRAILER, ZERO_EXTEND};
use oracle::text::{line, Rendering};
use oracle::words::{closed, packed, sealed, S};
use std::{env, fs, io, path::Path};

const LONGEST_PART: usize = 65_536;

/// What the program `hornscript` writes.
fn hornscript(answer: &Answer<Rendering>) -> String {
    match answer {
        Ok(rendering) if rendering.longest() <= LONGEST_PART => rendering.script.clone(),
        Ok(_) => "refused 9\n".to_string(),
        Err(refusal) => format!("refused {refusal}\n"),
    }
}

// ---- The cases

/// `counts` has the number of accepted files at 0, and at each other number that of the files refused with it.
#[derive(Default)]
struct Cases { stdin: Vec<u8>, stdout: String, counts: [usize; 16] }

impl Cases {
    fn add(&mut self, file: &[u8]) -> Answer<Rendering> {
        self.stdin.extend((file.len() as u32).to_le_bytes());
        self.stdin.extend(file);
        let (answer, number) = (checked(file).map(|[z3, _]| z3), self.counts.iter().sum::<usize>());
        self.stdout += &format!("file {number}: {}\n{}", line(&answer), hornscript(&answer));
        let over = |rendering: &Rendering| if rendering.longest() > LONGEST_PART { 9 } else { 0 };
        self.counts[answer.as_ref().map_or_else(|refusal| *refusal, over) as usize] += 1;
        answer
    }

    fn refused(&mut self, refusal: u8, file: &[u8]) { assert_eq!(self.add(file).err(), Some(refusal), "bytes {file:?}") }
    /// A refused file, with the usual names declared.
    fn no(&mut self, refusal: u8, words: &str) { assert_eq!(self.add(&closed(words)).err(), Some(refusal), "{words}") }

    /// The declarations and assertions of an accepted file, a line for each.
    fn lines(&mut self, file: &[u8]) -> Vec<String> {
        let rendering = self.add(file).unwrap_or_else(|refusal| panic!("refused {refusal}: {file:?}"));
        let written: String = (1..rendering.ends.len() - 1).map(|i| rendering.part(i)).collect();
        written.lines().filter(|line| !line.is_empty()).map(str::to_string).collect()
    }

    /// An accepted file with these lines.
    fn just(&mut self, expected: &str, words: &str) { assert_eq!(self.lines(&packed(words)).join("\n"), expected, "{words}") }

    /// An accepted file with the usual names declared, and these lines beside those declarations, which come first of their kind.
    fn is(&mut self, expected: &str, words: &str) {
        let mut lines = self.lines(&closed(words));
        for declared in ["(declare-const e Bool)", "(declare-const p Bool)", "(declare-fun k () Bool)"] {
            lines.remove(lines.iter().position(|line| line == declared).expect("a usual declaration"));
        }
        assert_eq!(lines.join("\n"), expected, "{words}");
    }

    fn all(&mut self, cases: &[(&str, &str)]) { cases.iter().for_each(|(expected, words)| self.is(expected, words)) }

    /// An accepted file with this for its longest part, and with the usual names declared.
    fn longest(&mut self, length: usize, words: &str) { self.longest_of(length, &closed(words)) }

    fn longest_of(&mut self, length: usize, file: &[u8]) { assert_eq!(self.add(file).ok().map(|rendering| rendering.longest()), Some(length)) }
}

const S_SCRIPT: &str = "\
(set-logic HORN)

(declare-const n Int)
(declare-fun k0 (Int) Bool)

(assert (forall ((x Int)) (=> (>= x 0) (k0 x))))
(assert (forall ((x Int)(y Int)) (=> (and (>= x 0) (k0 y) (not (>= y n))) false)))

(check-sat)
";

/// The papers' table, its line on buffers apart.
fn table(cases: &mut Cases) {
    let s = packed(S);
    assert!(s.len() == 108 && trailer(&s) == Ok([0, 0, 0, 3, 3, 9]));
    let rendering = cases.add(&s).ok().unwrap();
    assert_eq!((&rendering.script[..], rendering.ends.len(), rendering.assertions, rendering.script.len()), (S_SCRIPT, 7, 2, 214));
    assert_eq!(rendering.part(5), "(assert (forall ((x Int)(y Int)) (=> (and (>= x 0) (k0 y) (not (>= y n))) false)))\n");
    TABLE.iter().for_each(|(_, expected, words)| cases.just(expected, words));
    cases.refused(1, &[0; 27]);
    cases.refused(2, &[&[0; 24], &b"HORN"[..]].concat());
}

fn comments(cases: &mut Cases) {
    let long = "c".repeat(300);
    let rests = [
        ("v: 'k #0 h: 0 K", "(declare-fun k () Bool)\n\n(assert (=> true k))\n"), ("k: 'c 0", "(declare-const c Int)\n\n"), ("", "\n"),
    ];
    for (i, (lines, words)) in [
        ("", ""), (";; \n\n", "#0"), (";; one\n\n", "\"one"), (";; \n;; \n;; \n\n", "#0 #0 #0"),
        (";; a\n;; \n;; ;;(check-sat)\n;; |\"~\n\n", "\"a #0 \";;(check-sat) \"|\"~"), (";;   (a\n\n", "#4 32 32 40 97"),
        (&format!(";; {long}\n;; {}\n\n", &long[..256]), &format!("\"{long} \"{}", &long[..256])),
    ].iter().enumerate() {
        let (rest, text) = rests[i % 3];
        let rendering = cases.add(&packed(&format!("c: {words} {rest}"))).ok().unwrap();
        assert_eq!(rendering.script, format!("(set-logic HORN)\n\n{lines}{text}\n(check-sat)\n"));
    }
}

/// Three datatypes with 1, 2 and no parameters.
const DATATYPES: &str = "d: 'List #1 #2 'nil #0 'cons #2 'head 6 #0 'tail 11 'List #1 6 #0 'Pair #2 #1 'pair #2 'fst 6 #0 'snd 6 #1 \
    'Color #0 #3 'red #0 'green #0 'blue #0";
const DATATYPES_TEXT: &str = "\
(declare-datatypes ((List 1)) ((par (T0) ((nil) (cons (head T0) (tail (List T0)))))))
(declare-datatypes ((Pair 2)) ((par (T0 T1) ((pair (fst T0) (snd T1))))))
(declare-datatypes ((Color 0)) (((red) (green) (blue))))";

/// Sorts, over those datatypes.
const SORTS: [(&str, &str); 19] = [
    ("Int", "0"), ("Bool", "1"), ("Real", "2"), ("String", "3"), ("(_ BitVec 32)", "4 5 32 *3"),
    ("(_ BitVec 4294967295)", "4 5 #65535 #65535"), ("T0", "6 #0"), ("T65535", "6 #65535"), ("(Array Int Bool)", "7 0 1"),
    ("Real", "8 #3 2"), ("Set", "9 #0"), ("(Set Int)", "9 #1 0"), ("Array", "10 #0"), ("(Array Int (Set Bool))", "10 #2 0 9 #1 1"),
    ("Color", "11 'Color #0"), ("(List Color)", "11 'List #1 11 'Color #0"), ("(Pair Int Int)", "11 'Pair #2 0 11 'U #1 1"),
    ("Int", "11 'Colors #0"), ("Int", "11 'nil #2 1 11 'Color #0"),
];

/// Expressions, over those datatypes; `e` is a constant, and so is `true`; `f` is a function.
const EXPRS: [(&str, &str); 44] = [
    ("0", "0 *16"), ("340282366920938463463374607431768211455", "0 #65535 #65535 #65535 #65535 #65535 #65535 #65535 #65535"),
    ("false", "1 0"), ("7", "2 7 *3"), ("\"\"", "3 #0"), ("\"(;|)\"", "3 \"(;|)"), ("(_ bv5 8)", "4 5 *15 8 *3"), ("true", "5 'true"),
    ("(- e)", "7 E"), ("(not e)", "8 E"), ("(+ e 0)", "9 0 E 0 *16"), ("(- e e)", "9 1 E E"), ("(div e e)", "9 3 E E"),
    ("(= e e)", "10 0 E E"), ("(not (= e e))", "10 1 E E"), ("(>= e e)", "10 3 E E"), ("(<= e e)", "10 5 E E"), ("(=> e e)", "11 E E"),
    ("(= e e)", "12 E E"), ("true", "13 #0"), ("(and e)", "13 #1 E"), ("(and e true)", "13 #2 E 1 1"), ("false", "14 #0"),
    ("(or e)", "14 #1 E"), ("(or e e false)", "14 #3 E E 14 #0"), ("(ite e 0 1)", "15 E 0 *16 0 1 *15"),
    ("(let ((v e)) v)", "16 'v E 5 'v"), ("e", "17 0 E #0"), ("true", "17 0 1 1 #0"), ("(f e e)", "17 0 5 'f #2 E E"),
    ("(f e)", "17 1 0 5 'f #1 E"), ("(as nil (List Int))", "17 1 11 'List #1 0 5 'nil #0"),
    ("((as cons Int) e nil)", "17 1 11 'U #1 1 5 'cons #2 E 5 'nil"), ("(as emptyset (Set Int))", "17 1 9 #1 0 18 38 #0"),
    ("((as const (Array Int Bool)) true)", "17 1 10 #2 0 1 18 45 #1 1 1"), ("str.len", "18 0"), ("(_ zero_extend 24)", "18 5 24"),
    ("((_ sign_extend 255) e)", "17 0 18 6 255 #1 E"), ("((_ int2bv 128) e)", "17 0 18 13 #1 E"), ("(member e e)", "17 0 18 44 #2 E E"),
    ("((_ is cons) e)", "19 'cons E"), ("(exists () e)", "20 0 #0 E"),
    ("(forall ((x Int) (y Color)) x)", "20 1 #2 'x 0 'y 11 'Color #0 5 'x"),
    ("(exists ((x Bool)) (forall ((x Int)) e))", "20 0 #1 'x 1 20 1 #1 'x 0 E"),
];

const DECLARATIONS: &[(&str, &str)] = &[
    ("(declare-datatypes ((N 0)) (((c))))", "d: 'N #0 #1 'c #0"),
    ("(declare-datatypes ((N 3)) ((par (T0 T1 T2) ((c (f T2) (g N)) (d)))))", "d: 'N #3 #2 'c #2 'f 6 #2 'g 11 'N #0 'd #0"),
    ("(declare-datatypes ((A 0)) (((a (f B) (g Int)))))\n(declare-datatypes ((B 0)) (((b (f A)))))",
        "d: 'A #0 #1 'a #2 'f 11 'B #0 'g 11 'C #0 'B #0 #1 'b #1 'f 11 'A #0"),
    ("(declare-datatypes ((N 12)) ((par (T0 T1 T2 T3 T4 T5 T6 T7 T8 T9 T10 T11) ((c)))))", "d: 'N #12 #1 'c #0"),
    ("(declare-const c Int)\n(declare-const c (Array Bool Real))", "k: 'c 0 'c 7 1 2"), ("(declare-fun f () Int)", "f: 'f #0 #0 0 0"),
    ("(declare-fun f () T0)", "f: 'f #65535 #0 6 #0 0"),
    ("(declare-fun f (Int (Set Int) Int) Bool)", "f: 'f #1 #3 0 9 #1 0 11 'U #0 1 0"),
    ("(define-fun f () Int e)", "f: 'f #0 #0 0 1 #0 E"),
    ("(define-fun f ((x Int) (y T1)) Bool (not (= x y)))", "f: 'f #2 #2 0 6 #1 1 1 #2 'x 'y 10 1 5 'x 5 'y"),
    ("(declare-fun k () Bool)", "v: 'k #0"),
    ("(declare-fun k (Int) Bool)\n(declare-fun k1 (Bool Int Real) Bool)", "v: 'k #1 0 'k1 #3 1 0 2"),
    ("(declare-datatypes ((D 0)) (((d))))\n(declare-const c D)\n(declare-fun f () D)\n(declare-fun k (D) Bool)\n(assert (=> true k))",
        "c: \"all d: 'D #0 #1 'd #0 k: 'c 11 'D #0 f: 'f #0 #0 11 'D #0 0 v: 'k #1 11 'D #0 h: 0 K"),
    // A ForAll named like a datatype or an argument, or nearly like a constant; a Let and a Quantifier named like one
    ("(declare-datatypes ((x 0)) (((c))))\n(assert (forall ((x x)) (=> true k)))", "d: 'x #0 #1 'c #0 h: 2 'x 11 'x #0 #0 0 K"),
    ("(define-fun f ((x Int)) Int x)\n(assert (forall ((x Int)) (=> true k)))", "f: 'f #0 #1 0 0 1 #1 'x 5 'x h: X 0 K"),
    ("(declare-const xx Int)\n(declare-const X Int)\n(assert (forall ((x Int)) (=> true k)))", "k: 'xx 0 'X 0 h: X 0 K"),
    ("(declare-const c Int)\n(assert (forall ((x Int)) (=> (not (let ((c x)) (exists ((c Int)) c))) false)))",
        "k: 'c 0 h: X 0 1 16 'c 5 'x 20 0 #1 'c 0 5 'c"),
    // KVars with arguments, one named `true`, and one with a string
    ("(declare-fun k1 (Bool) Bool)\n(assert (=> true (k1 e)))", "v: 'k1 #1 1 h: 0 0 'k1 #1 E"),
    ("(declare-fun k2 (Int Bool) Bool)\n(declare-fun k3 (Bool Int Bool) Bool)\n\
        (assert (forall ((x Int)) (=> (k2 x e) (k3 e (+ x 1) false))))",
        "v: 'k2 #2 0 1 'k3 #3 1 0 1 h: 2 'x S #1 0 'k2 #2 5 'x E 0 0 'k3 #3 E 9 0 5 'x 0 1 *15 1 0"),
    ("(declare-fun true () Bool)\n(assert (=> true true))", "v: 'true #0 h: 0 0 'true #0"),
    ("(declare-fun s (String) Bool)\n(assert (forall ((x Int)) (=> \"\"\")(check-sat)(\"\"\" (s \"\"\"\"))))",
        "v: 's #1 3 h: 2 'x S #1 1 3 \"\")(check-sat)(\" 0 0 's #1 3 \"\""),
    // Of two KVars with one name the first counts
    ("(declare-fun a (Int) Bool)\n(declare-fun a (Int Int) Bool)\n(assert (=> true (a e)))", "v: 'a #1 0 'a #2 0 0 h: 0 0 'a #1 E"),
    // Names in their scopes: a function before, an argument, a Let in a Let, a Quantifier's, a ForAll's, and those of a datatype
    ("(declare-fun f () Int)\n(define-fun g ((x Int)) Int (+ x f))\n(assert (=> (not (g f)) false))",
        "f: 'f #0 #0 0 0 'g #0 #1 0 0 1 #1 'x 9 0 5 'x 5 'f h: 0 1 17 0 5 'g #1 5 'f"),
    ("(declare-datatypes ((D 0)) (((c (f Int)) (d))))\n(assert (forall ((x D)) (=> (and ((_ is c) x) (not (= (f x) (f d)))) false)))",
        "d: 'D #0 #2 'c #1 'f 0 'd #0 h: 2 'x 11 'D #0 #1 1 19 'c 5 'x 0 1 10 0 17 0 5 'f #1 5 'x 17 0 5 'f #1 5 'd"),
    ("(declare-fun h () Int)\n(declare-fun h () Int)\n(assert (=> (not h) false))", "f: 'h #0 #0 0 0 'h #0 #0 0 0 h: 0 1 5 'h"),
];

/// What the expressions need beside the usual names, and its lines.
const OTHER_NAMES: &str = "k: 'true 1 f: 'f #0 #0 0 0";
const OTHER_NAMES_TEXT: &str = "(declare-const true Bool)\n(declare-fun f () Int)";

fn declarations(cases: &mut Cases) {
    cases.is(DATATYPES_TEXT, DATATYPES);
    cases.all(DECLARATIONS);
    // Every sort, in each kind of declaration
    let joined = |form: &str, by: &str| SORTS.map(|(text, words)| form.replace('@', text).replace('%', words)).join(by);
    cases.is(&format!("{DATATYPES_TEXT}\n{}", joined("(declare-const c @)", "\n")), &format!("{DATATYPES} k: {}", joined("'c %", " ")));
    cases.is(&format!("{DATATYPES_TEXT}\n(declare-datatypes ((N 1)) ((par (T0) ((c {})))))", joined("(f @)", " ")),
        &format!("{DATATYPES} 'N #1 #1 'c #19 {}", joined("'f %", " ")));
    cases.is(&format!("{DATATYPES_TEXT}\n(define-fun f ({}) Int e)\n(declare-fun k ({}) Bool)", joined("(x @)", " "), joined("@", " ")),
        &format!("{DATATYPES} f: 'f #0 #19 {} 0 1 #19 {} E v: 'k #19 {}", joined("%", " "), "'x ".repeat(19), joined("%", " ")));
    // Every sort as a ForAll's, every expression as a head, as a guard and as an argument
    let around: String = SORTS.iter().enumerate().map(|(i, (_, words))| format!("2 'x{i} {words} #0 ")).collect();
    let binders: String = SORTS.iter().enumerate().map(|(i, (text, _))| format!("(x{i} {text})")).collect();
    cases.is(&format!("{DATATYPES_TEXT}\n(assert (forall ({binders}) (=> true k)))"), &format!("{DATATYPES} h: {around} 0 K"));
    let (declared, declared_text) = (format!("{DATATYPES} {OTHER_NAMES}"), format!("{DATATYPES_TEXT}\n{OTHER_NAMES_TEXT}"));
    let joined = |form: &str, by: &str| EXPRS.map(|(text, words)| form.replace('@', text).replace('%', words)).join(by);
    cases.is(&format!("{declared_text}\n{}", joined("(assert (=> (not @) false))", "\n")),
        &format!("{declared} h: 1 #44 {}", joined("0 1 %", " ")));
    cases.is(&format!("{declared_text}\n(assert (forall ((x Int)) (=> (and {} (not e)) false)))", joined("@", " ")),
        &format!("{declared} h: 2 'x 0 #44 {} 0 1 E", joined("1 %", " ")));
    let (sorts, text) = ("0 ".repeat(44), "Int ".repeat(44));
    let (kvar, args) = (format!("(declare-fun v ({}) Bool)", text.trim_end()), joined("@", " "));
    cases.is(&format!("{declared_text}\n{kvar}\n(assert (forall ((x Int)) (=> (v {args}) (v {args}))))"),
        &format!("{declared} v: 'v #44 {sorts} h: 2 'x 0 #1 0 'v #44 {0} 0 0 'v #44 {0}", joined("%", " ")));
    let functions: Vec<usize> = (0..48).filter(|code| ![ZERO_EXTEND, SIGN_EXTEND, SET_EMPTY, MAP_DEFAULT].contains(code)).collect();
    cases.is(&functions.iter().map(|code| format!("(assert (=> (not {}) false))", THEORY[*code])).collect::<Vec<_>>().join("\n"),
        &format!("h: 1 #44 {}", functions.iter().map(|code| format!("0 1 18 {code} ")).collect::<String>()));
}

/// ForAlls inside each other, the i-th with i % 4 predicates, over a KVar head and an expression.
fn nested_assertions(cases: &mut Cases) {
    let preds = [("p", "P"), ("", "T"), ("k", "K"), ("false", "F"), ("", "T"), ("(and e)", "1 13 #1 E")];
    for depth in 0..=20 {
        let (mut words, mut binders, mut guards) = (String::new(), String::new(), Vec::new());
        for i in 0..depth {
            let own: Vec<_> = (0..i % 4).map(|j| preds[(i + 2 * j + depth) % 6]).collect();
            words += &format!("2 'x{i} S #{} {} ", own.len(), own.iter().map(|pred| pred.1).collect::<Vec<_>>().join(" "));
            binders += &format!("(x{i} Int)");
            guards.extend(own.iter().map(|pred| pred.0).filter(|text| !text.is_empty()));
        }
        let joined = guards.join(" ");
        let from = match guards.len() { 0 => "true".to_string(), 1 => joined.clone(), _ => format!("(and {joined})") };
        let against = if guards.is_empty() { "(not e)".to_string() } else { format!("(and {joined} (not e))") };
        let (before, after) = if depth == 0 { (String::new(), "") } else { (format!("(forall ({binders}) "), ")") };
        let expected = format!("(assert {before}(=> {from} k){after})\n(assert {before}(=> {against} false){after})");
        cases.is(&expected, &format!("h: {words} 1 #2 0 K 0 1 E"));
    }
}

/// Assertions, and files that have these and no declaration but the usual ones. `xy: c` stands for `(forall ((x Int)(y Int)) c)`.
const ASSERTIONS: &[(&str, &str)] = &[
    // What stands in a Conj: nothing, Conjs, heads, heads literally true
    ("", "h: C"), ("", "h: 1 #2 C 1 #1 C"), ("", "h: 1 #3 0 T 0 T 0 T"), ("(=> true k)", "h: 1 #1 0 K"),
    ("(=> true k)", "h: 1 #1 1 #1 1 #1 0 K"), ("(=> true k) | (=> (not e) false)", "h: 1 #2 0 K 0 1 E"),
    ("(=> (not e) false) | (=> true k) | (=> (not false) false)", "h: 1 #2 1 #4 0 T 0 1 E C 0 K 1 #2 0 F 0 T"),
    // What one member has does not reach the next
    ("x: (=> p k) | (=> true k) | y: (=> (and false (not e)) false)", "h: 1 #3 2 'x S #1 P 0 K 0 K 2 'y S #1 F 0 1 E"),
    ("(=> (not e) false)", "h: 1 #2 2 'x S #2 P K C 0 1 E"), ("(=> (not e) false)", "h: 1 #2 2 'x S #1 P 0 T 0 1 E"),
    ("zx: (=> (and k p) k) | z: (=> k k) | (forall ((z Int)(y Bool)) (=> (and k false (not e)) false)) | z: (=> (and k (not p)) false)",
        "h: 2 'z S #1 K 1 #4 2 'x S #1 P 0 K 0 K 2 'y 1 #1 F 1 #2 C 0 1 E 0 P"),
    ("xyz: (=> p k) | xy: (=> p k) | x: (=> true k)", "h: X 1 #2 2 'y S #1 P 1 #2 Z 0 K 0 K 0 K"),
    ("x: (=> p k) | (forall ((x Bool)) (=> true k))", "h: 1 #2 2 'x S #1 P 0 K 2 'x 1 #0 0 K"),
    ("yx: (=> true k) | xy: (=> true k)", "h: 1 #3 Y X 0 K C X Y 0 K"),
    // No head, or a head literally true, below ForAlls
    ("", "h: X Y Z C"), ("", "h: 2 'x S #2 P K 0 T"), ("", "h: X 1 #2 Y 0 T Z 1 #1 0 T"),
    // Guards: literally true ones, in file order, and those that only look true
    ("x: (=> true k)", "h: 2 'x S #1 T 0 K"), ("x: (=> (not e) false)", "h: 2 'x S #3 T T T 0 1 E"),
    ("x: (=> p k)", "h: 2 'x S #3 T P T 0 K"), ("x: (=> (and p (not e)) false)", "h: 2 'x S #2 T P 0 1 E"),
    ("xy: (=> (and p k false p) k)", "h: 2 'x S #3 P K T 2 'y S #3 F T P 0 K"),
    ("xyz: (=> (and p k) k)", "h: 2 'x S #1 P 2 'y S #1 T 2 'z S #1 K 0 K"), ("x: (=> true k)", "h: 2 'x S #1 1 13 #0 0 K"),
    ("x: (=> false k)", "h: 2 'x S #1 1 14 #0 0 K"), ("x: (=> (and true (not e)) false)", "h: 2 'x S #1 1 13 #0 0 1 E"),
    ("x: (=> (and true false (not true)) false)", "h: 2 'x S #3 1 13 #0 T 1 14 #0 0 1 13 #0"),
    ("(forall ((true Int)) (=> (and true true) k))", "h: 2 'true S #2 1 5 'true 1 17 0 1 1 #0 0 K"),
    ("x: (=> (and e) k)", "h: 2 'x S #1 1 13 #1 E 0 K"),
    ("x: (=> (and e e) k)", "h: 2 'x S #1 1 13 #2 E E 0 K"), ("x: (=> (and e e) k)", "h: 2 'x S #2 1 E 1 E 0 K"),
    ("x: (=> (and (and e e) (not (or e))) false)", "h: 2 'x S #1 1 13 #2 E E 0 1 14 #1 E"),
    // Heads that only look true
    ("(forall ((true Int)) (=> (not true) false))", "h: 2 'true 0 #0 0 1 5 'true"), ("(=> (not (and true)) false)", "h: 0 1 13 #1 1 1"),
    ("(=> (not true) false)", "h: 0 1 17 0 1 1 #0"), ("(=> (not (not false)) false)", "h: 0 1 8 1 0"),
    // Quotation marks in strings: alone, two, between, at both ends
    ("(=> (not \"\"\"\") false)", "h: 0 1 3 \"\""), ("(=> (not \"\"\"\"\"\") false)", "h: 0 1 3 \"\"\""),
    ("(=> (not (= \"a\"\"b\" \"\"\"a\"\"\")) false)", "h: 0 1 10 0 3 \"a\"b 3 \"\"a\""),
    // Names: an expression may bind a ForAll's
    ("x: (=> (not (exists ((x Bool)) (let ((x x)) x))) false)", "h: X 0 1 20 0 #1 'x 1 16 'x 5 'x 5 'x"),
    ("(forall ((true Int)(false Int)(X Int)(x Int)) (=> true k))", "h: 2 'true 0 #0 2 'false 0 #0 2 'X 0 #0 X 0 K"),
];

fn assertions(cases: &mut Cases) {
    for (expected, words) in ASSERTIONS {
        let lines = expected.split(" | ").filter(|text| !text.is_empty()).map(|text| match text.split_once(": ") {
            Some((names, clause)) => {
                let binders: String = names.chars().map(|name| format!("({name} Int)")).collect();
                format!("(assert (forall ({binders}) {clause}))")
            }
            None => format!("(assert {text})"),
        });
        cases.is(&lines.collect::<Vec<_>>().join("\n"), words);
    }
    let (long, other, third) = ("a".repeat(255), "a".repeat(254) + "b", "b".to_string() + &"a".repeat(254));
    cases.is(&format!("(declare-fun {third} (Int) Bool)\n(assert (forall (({long} Int)({other} Int)) (=> {long} ({third} {other}))))"),
        &format!("v: '{third} #1 0 h: 2 '{long} S #0 2 '{other} S #1 1 5 '{long} 0 0 '{third} #1 5 '{other}"));
    cases.is(&format!("(declare-fun {long} () Bool)\n(assert (forall (({other} Int)) (=> true k)))"),
        &format!("v: '{long} #0 h: 2 '{other} S #0 0 K"));
}

fn large(cases: &mut Cases) {
    let (binders, guards): (String, String) = (0..200).map(|i| (format!("(x{i} Int)"), format!(" x{i}"))).unzip();
    let expected = [format!("(and{guards}) k"), format!("(and{guards} (not e)) false"), format!("(and{guards} (not false)) false")];
    let expected = expected.map(|clause| format!("(assert (forall ({binders}) (=> {clause})))"));
    cases.is(&expected.join("\n"), &format!("h: {}", nested(200, "1 #4 0 K 0 1 E 0 T 0 F")));
    // As deep as can be: a head's predicate one deeper than its constraint, the predicate's expression two
    cases.longest(3621, &format!("h: {}", nested(253, "0 1 E")));
    cases.longest(3624, &format!("h: {}", nested(254, "0 K")));
    cases.no(3, &format!("h: {}", nested(254, "0 1 E")));
    cases.no(3, &format!("h: {}", nested(255, "0 K")));
    cases.no(7, &format!("h: {}", nested(253, "2 'x0 0 #0 C")));
    let (many, conjs) = ("0 K 0 T 0 1 E ".repeat(250), "1 #1 ".repeat(253));
    cases.is(&["(assert (=> true k))\n(assert (=> (not e) false))"; 250].join("\n"), &format!("h: 1 #750 {many}"));
    cases.is("(assert (=> (not e) false))", &format!("h: {conjs} 0 1 E"));
    cases.is(&["(assert (forall ((x Int)) (=> p k)))"; 300].join("\n"), &format!("h: 1 #300 {}", "2 'x S #1 P 0 K ".repeat(300)));
    cases.is(&vec!["(declare-const c Int)"; 300].join("\n"), &format!("k: {}", "'c 0 ".repeat(300)));
    // 60,000 and 60,001 bytes: heads literally true, and a comment
    let trues = |comment: usize| format!("c: \"{} h: 1 #14000 {}", "c".repeat(comment), "0 T ".repeat(14_000));
    assert_eq!(packed(&trues(3967)).len(), LONGEST_FILE);
    cases.just("", &trues(3967));
    cases.refused(1, &packed(&trues(3968)));
}

/// Parts of 65,536 bytes and above.
fn lengths(cases: &mut Cases) {
    // The opening: a comment of no byte has 4 bytes of text
    let comments = |last: &str| format!("c: {} \"{last} h: 0 K", "#0 ".repeat(16_378));
    // A datatype with parameters
    let params = |vars: u16, name: &str| format!("d: '{name} #{vars} #1 'c #0 h: 0 K");
    // An assertion: a function of 14 bytes in each 2 bytes
    let ors = |name: &str| format!("1 14 #4367 {} 5 '{name}", "18 13 ".repeat(4366));
    // A string: each quotation mark gives 2 bytes
    let string = |last: &str| format!("h: 0 1 3 \"{}{last}", "\"".repeat(32_753));
    for (over, comment, datatype, member, last) in
        [(0, "c", "fives", "abcdefghijklmn", "a"), (1, "cc", "sixths", "abcdefghijklmno", "\"")]
    {
        cases.longest(LONGEST_PART + over, &string(last));
        cases.longest(LONGEST_PART + over, &comments(comment));
        cases.longest(LONGEST_PART + over, &params(10_942, datatype));
        cases.longest(LONGEST_PART + over, &format!("k: '{member} 1 h: 0 {}", ors(member)));
    }
    cases.longest_of(119_963, &packed(&format!("h: 0 1 3 \"{}", "\"".repeat(59_967))));
    cases.longest(447_683, &params(65_535, "N"));
    let two = params(65_535, "N").replace(" h:", " 'M 255 255 #1 'c #0 h:");
    cases.longest(447_683, &two);
    cases.no(7, &params(65_535, "N").replace("0 K", "X X 0 K"));
    cases.no(4, &params(65_535, "par"));
    // Other parts: a constant, a function, a KVar, an assertion with many guards, the last of some
    let strings = "3 ".repeat(9363);
    cases.longest(65_565, &format!("k: 'c 9 #9363 {strings}"));
    cases.longest(65_563, &format!("f: 'f #0 #9363 {strings} 0 0"));
    cases.longest(65_564, &format!("k: 'a 0 v: 'k #9363 {strings} h: 0 K"));
    let guarded: String = (0..180).map(|i| format!("2 '{:a<50}x{i} 4 5 #65535 #65535 #20 {} ", "", "1 18 13 ".repeat(20))).collect();
    cases.longest(67_964, &format!("h: {guarded} 0 K"));
    cases.longest(LONGEST_PART + 1, &format!("k: 'abcdef 1 v: 'k #0 h: 1 #3 0 K 0 1 E 2 'x S #1 {} 0 K", ors("abcdef")));
    // A guard that would make an assertion too long does nothing where no head is
    let (name, guard) = ("abcdefghijklmnop", ors("abcdefghijklmnop"));
    cases.is(&format!("(declare-const {name} Bool)\n(assert (=> true k))"),
        &format!("k: '{name} 1 h: 1 #3 2 'x S #1 {guard} 0 T 0 K 2 'x S #1 {guard} C"));
}

fn refusals(cases: &mut Cases) {
    let s = packed(S);
    let lengths_and_marks = [&[], &b"HORN"[..], &[0; 28], &s[..107], &[&s[..], b"\n"].concat(), &[&s[..104], b"HORM"].concat()];
    lengths_and_marks.iter().for_each(|file| cases.refused(1, file));
    for (refusal, offsets) in [
        (1, [1, 1, 1, 3, 3, 9]), (1, [0, 4, 3, 3, 3, 9]), (1, [0, 0, 0, 3, 3, 81]), (1, [0, 0, 0, 9, 3, 9]), (1, [0, 0, 0, 3, 3, 1 << 24]),
        (2, [0, 0, 0, 3, 3, 80]), (2, [0, 0, 3, 3, 3, 9]), (2, [0, 0, 0, 2, 3, 9]),
    ] {
        cases.refused(refusal, &sealed(&s[..s.len() - TRAILER], offsets));
    }
    for (refusal, files) in [
        (2, &["h:", "h: 3", "h: C C", "h: 0 2", "h: 0 1 21", "h: 0 1 1 2", "h: 0 1 18 48", "h: 0 0 0 #0", "k: 'c 12", "c: #2 97",
            "h: 1 #2 0 K"][..]),
        (4, &["k: 'par 0", "k: '1 0", "v: 'a(b #0", "c: #1 10", "h: 0 1 3 #2 34 10", "h: 0 1 3 #1 127", "h: 2 'let 0 #0 C",
            "h: 0 0 'assert #0", "h: 0 1 5 'check-sat", ACCIDENT,
            "k: 'c 11 'U #1 11 'as #0"]),
        (5, &["d: 'D #0 #0", "d: 'E #1 #1 'e #0 'D #0 #0", "d: 'D #0 #0 k: 'c 4 0 h: 0 1 6"]),
        (12, &["k: 'c 4 0", "k: 'c 5 8 *3", "k: 'c 11 'U #1 5 *4", "h: 2 'x 5 8 *3 #0 C", "f: 'f #0 #0 0 1 #1 'x 18 38 v: 'k #1 4 4 5 *4"]),
        (13, &["h: 0 1 18 38", "h: 0 1 18 45", "h: 0 1 17 0 18 45 #1 E", "h: 1 #2 0 1 6 0 1 17 1 0 18 38 #1 18 38"]),
        (14, &["h: 0 1 6", "h: 2 'x S #1 1 6 0 T", "f: 'f #0 #0 0 1 #1 'x 6", "f: 'f #0 #1 0 0 1 #0 E h: X X 0 1 6"]),
        (6, &["f: 'f #0 #1 0 0 1 #0 E", "f: 'f #0 #0 0 1 #1 'x E", "f: 'f #0 #2 0 0 0 1 #1 'x E h: X X 0 K"]),
        (7, &["h: X X 0 K", "h: X Y X 0 T", "h: X Y Y 0 K", "h: X Y Z Y C", "h: X 1 #2 0 K Y 1 #1 X C", "h: 1 #2 X 0 K Y Z Y 0 K",
            "k: 'x 0 h: X Y Y 0 K", "k: 'x 0 h: 1 #2 Y Y 0 K X 0 K"]),
        (15, &["k: 'x 0 h: X 0 K", "f: 'x #0 #0 0 0 h: X 0 K", "d: 'D #0 #1 'x #0 h: X 0 K", "d: 'D #0 #1 'c #1 'x 0 h: X 0 K",
            "v: 'x #0 h: X 0 K", "k: 'a 0 'x 0 'b 0 h: 1 #2 0 K Y 1 #2 C X C", "d: 'x #0 #1 'x #0 h: Y X 0 T"]),
        (10, &["h: 0 1 5 'a", "h: 0 1 17 0 5 'a #1 E", "h: 2 'x 0 #1 1 5 'a C", "h: 0 1 16 'a 5 'a E", "h: 0 1 13 #2 16 'a E 5 'a 5 'a",
            "h: 0 1 13 #2 20 0 #1 'a 0 5 'a 5 'a", "h: 1 #2 X 0 K 0 1 5 'x", "f: 'f #0 #0 0 1 #0 5 'f", "f: 'f #0 #0 0 1 #0 5 'g 'g #0 #0 0 0",
            "f: 'f #0 #1 0 0 1 #1 'x E h: 0 1 5 'x", "h: 0 1 5 'k", "d: 'D #0 #1 'c #0 h: 0 1 5 'D", "h: 0 1 5 'true", "h: 0 1 19 'e E",
            "d: 'D #0 #1 'c #1 'f 0 h: 0 1 19 'f E", "h: 0 0 'e #0", "h: 0 0 'a #1 E", "h: 1 #2 0 0 'k #1 E 0 1 5 'a"]),
        (11, &["h: 0 0 'k #1 E", "v: 'a #1 0 h: 0 0 'a #0", "v: 'a #2 0 0 h: 2 'x 0 #1 0 'a #3 E E 5 'x 0 T",
            "v: 'a #1 0 'a #2 0 0 h: 0 0 'a #2 E E", "v: 'k #1 0 h: 0 0 'k #1 E"]),
    ] {
        files.iter().for_each(|words| cases.no(refusal, words));
    }
    cases.no(3, &format!("k: 'c {} 0", "9 #1 ".repeat(256)));
    cases.no(3, &format!("h: {} C", "1 #1 ".repeat(256)));
    cases.no(3, &format!("h: 0 1 {}", "8 ".repeat(254)));
    cases.no(14, &format!("h: X X 0 1 {} 6", "8 ".repeat(251)));
    cases.no(15, &format!("k: 'x253 0 h: {}", nested(254, "C")));
    cases.no(15, &format!("v: '{0} #0 h: 2 '{0} 0 #0 0 K", "a".repeat(255)));
    cases.no(10, &format!("h: {}", nested(253, "0 1 5 'x253")));
    cases.refused(10, &packed("h: X 2 'k 0 #0 0 K"));
    cases.refused(10, &packed("h: 0 1 E"));
}

const DESK: &str = include_str!("../../../docs/REFUSALS.md");

/// The examples of docs/REFUSALS.md for the program: sections by their bytes, which stand there between backquotes under the number.
const EXAMPLES: [(u8, &[&str]); 16] = [
    (4, &["h: 0 1 5 1 40"]), (5, &["d: 1 68 0 0 0 0"]), (12, &["k: 1 99 4 0"]), (12, &["k: 1 99 5 8 0 0 0"]), (13, &["h: 0 1 18 38"]),
    (13, &["h: 0 1 17 0 18 45 0 0"]), (14, &["h: 0 1 6"]), (6, &["f: 1 102 0 0 0 0 0 1 1 0 1 120 1 1"]),
    (7, &["h: 2 1 120 0 0 0 2 1 120 0 0 0 1 0 0"]),
    (15, &["k: 3 108 105 109 0", "h: 2 1 120 0 1 0 1 10 4 5 1 120 5 3 108 105 109 2 3 108 105 109 0 0 0 0 1 10 3 5 3 108 105 109 5 1 120"]),
    (10, &["h: 0 1 5 1 97"]), (10, &["h: 0 1 16 1 97 5 1 97 1 1"]), (10, &["k: 1 99 0", "h: 0 1 19 1 99 5 1 99"]), (10, &["h: 0 0 1 107 0 0"]),
    (11, &["v: 1 107 1 0 0", "h: 0 0 1 107 0 0"]), (9, &["d: 1 100 255 255 1 0 1 99 0 0"]),
];

fn examples(cases: &mut Cases) {
    for (refusal, sections) in EXAMPLES {
        let (_, behind) = DESK.split_once(&format!("\n## {refusal}: ")).expect("a heading");
        let example = behind.split_once("\n## ").expect("another heading").0.split_once("- Example").expect("an example").1;
        sections.iter().for_each(|section| assert!(example.contains(&format!("`{}`", &section[3..])), "{refusal}: {section}"));
        let answer = cases.add(&packed(&sections.join(" ")));
        assert_eq!(hornscript(&answer), format!("refused {refusal}\n"));
    }
    // A comment with `x`, a line feed and a command
    cases.no(4, "c: #13 120 10 40 99 104 101 99 107 45 115 97 116 41");
    // What is to be done for 13: the empty set of Int, and the map from Int to Bool that is false everywhere
    for (text, bytes) in [("(as emptyset (Set Int))", "17 1 9 1 0 0 18 38 0 0"), ("((as const (Array Int Bool)) false)", "17 1 10 2 0 0 1 18 45 1 0 1 0")] {
        assert!(DESK.contains(&format!("`{bytes}`")));
        cases.is(&format!("(assert (=> (not {text}) false))"), &format!("h: 0 1 {bytes}"));
    }
}

// ---- Cases by chance

fn by_chance(cases: &mut Cases) {
    let mut chance = Chance::new(SEED);
    let plan = Plan { pieces: 80, items: 2, target: 0, chain: false };
    let files: Vec<Vec<u8>> = (0..32).map(|_| Draft::new(&mut chance, plan).file()).collect();
    files.iter().for_each(|file| assert!(cases.add(file).is_ok()));
    for mut file in files {
        // One byte changed
        let at = chance.below(file.len());
        file[at] = [file[at] ^ 1, file[at].wrapping_add(1), chance.below(22) as u8, chance.below(256) as u8][chance.below(4)];
        let _ = cases.add(&file);
    }
}

fn main() -> io::Result<()> {
    let directory = env::args().nth(1).expect("the directory to write into");
    let mut cases = Cases::default();
    for group in [table, comments, declarations, nested_assertions, assertions, large, lengths, refusals, examples, by_chance] {
        group(&mut cases);
    }
    let (counts, files) = (cases.counts, cases.counts.iter().sum::<usize>());
    let refused = REFUSALS.iter().chain(&[9]).map(|refusal| (*refusal, counts[*refusal as usize]));
    eprintln!("{files} files: accepted {}, refused {:?}", counts[0], refused.clone().collect::<Vec<_>>());
    eprintln!("{} bytes of stdin, {} of stdout", cases.stdin.len(), cases.stdout.len());
    assert!(refused.clone().all(|(_, count)| count >= 3) && counts[0] + refused.map(|(_, count)| count).sum::<usize>() == files);
    fs::create_dir_all(&directory)?;
    fs::write(Path::new(&directory).join("stdin"), cases.stdin)?;
    fs::write(Path::new(&directory).join("stdout"), cases.stdout)
}
