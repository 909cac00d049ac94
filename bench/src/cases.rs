//! The task files that are measured. Each case but `small` can be had at so many quarters of its size: every count that is named below, and
//! the bytes that a case may fill, times that share; `datatypes-few` keeps its datatypes.
use oracle::chance::{Chance, SEED};
use oracle::draft::{Draft, Plan, Spot};
use oracle::faults::any_kind;
use oracle::limits::nested;
use oracle::strings::{in_exprs, in_pred};
use oracle::task::{accepted, is_symbol, Constraint, Expr, Task, LONGEST_FILE};
use oracle::words::{bytes, packed, USUAL};
use std::{collections::BTreeSet, iter::repeat_with, slice::from_ref};

/// The quarters of a case's whole size.
pub const WHOLE: usize = 4;

/// A case: its name, whether its growth is measured, and its files at so many quarters of its size. It is measured in the edition of cvc5 if its name
/// ends so, and else in that of Z3.
pub type Case = (&'static str, bool, fn(usize) -> Vec<Vec<u8>>);

pub const CASES: [Case; 24] = [
    ("deep", true, |quarters| vec![deep(quarters)]),
    ("deep-guards", true, |quarters| vec![deep_guards(quarters)]),
    ("deep-names", true, |quarters| vec![deep_names(quarters)]),
    ("wide", true, |quarters| vec![packed(&format!("h: {}", heads(share(WIDE_HEADS, quarters))))]),
    ("wide-kvars", false, |quarters| vec![filled(quarters, WIDE_KVARS, || "0 0 'k0 #1 5 'x".to_string())]),
    ("expressions", true, |quarters| vec![expressions(quarters)]),
    ("datatypes", true, |quarters| vec![datatypes(quarters, &numbered(share(MANY_DATATYPES, quarters)))]),
    ("datatypes-few", false, |quarters| vec![datatypes(quarters, &numbered(FEW_DATATYPES))]),
    ("one-bucket", true, |quarters| vec![datatypes(quarters, &in_one_bucket(share(MANY_DATATYPES, quarters)))]),
    ("binders", true, |quarters| vec![binders(share(BINDERS, quarters))]),
    ("applications", true, |quarters| vec![applications(share(APPS, quarters), share(VARIABLES, quarters))]),
    ("names", true, |quarters| vec![filled(quarters, NAMES, || "17 0 5 'merge #2 5 'left 5 'right".to_string())]),
    ("sets", false, |quarters| vec![filled(quarters, SETS, membership)]),
    ("sets-cvc5", false, |quarters| vec![filled(quarters, SETS, membership)]),
    ("constants", true, |quarters| vec![constants(&short_names(share(CONSTANTS, quarters)))]),
    ("constants-one-bucket", true, |quarters| vec![constants(&short_names_in_one_bucket(share(CONSTANTS_IN_ONE_BUCKET, quarters)))]),
    ("quantified", true, |quarters| vec![quantified(share(QUANTIFIED, quarters), share(QUANTIFIED_VARIABLES, quarters))]),
    ("lets", true, |quarters| vec![lets(share(LETS, quarters), share(VARIABLES, quarters))]),
    ("numerals", false, |quarters| vec![numerals(quarters)]),
    ("strings", false, |quarters| vec![strings(quarters, |chance| 35 + chance.below(92) as u8)]),
    ("quotes", false, |quarters| vec![strings(quarters, |_| b'"')]),
    ("generated", false, generated),
    ("generated-flux", false, generated_flux),
    ("small", false, |_| vec![include_bytes!("../../crates/hornscript/stdin").to_vec()]),
];

/// The cases that are also measured by runs: some with many parts, files by chance, and a small file.
pub const BY_RUNS: [&str; 9] = ["deep", "deep-names", "wide", "wide-kvars", "expressions", "datatypes", "constants", "generated", "small"];

const DEEP_FORALLS: usize = 200;
const DEEP_HEADS: usize = 10_000;
const DEEP_NAMES: usize = 250;
const NAME_BYTES: usize = 100;
const WIDE_HEADS: usize = 14_000;
const MANY_DATATYPES: usize = 1500;
const FEW_DATATYPES: usize = 20;
const SORTS_OF_A_KVAR: usize = 4;
const BINDERS: usize = 4000;
const APPS: usize = 240;
const VARIABLES: usize = 9000;
const CONSTANTS: usize = 6000;
const CONSTANTS_IN_ONE_BUCKET: usize = 4900;
const QUANTIFIED: usize = 8000;
const QUANTIFIED_VARIABLES: usize = 4000;
const LETS: usize = 200;
const STRING_BYTES: usize = 1000;
const GENERATED: usize = 1000;

/// What stands before the heads of `wide-kvars`, before the applications of `names`, and before the memberships of `sets`.
const WIDE_KVARS: &str = "k: 'p 1 v: 'k0 #1 0 h: 2 'x 0 #2 P P 1 #@";
const NAMES: &str = "k: 'left 0 'right 0 f: 'merge #0 #2 0 0 1 0 h: 0 1 13 #@";
const SETS: &str = "k: 'x 0 's 9 #1 0 't 9 #1 0 h: 0 1 13 #@";

/// The pieces of the drafts that expressions are taken from, and the bytes that each of these has at least.
const PIECES: usize = 1500;
const LARGE: usize = 500;

fn share(count: usize, quarters: usize) -> usize { count * quarters / WHOLE }

/// The words before, with as many items behind them as fit into so many quarters of the longest file; `@` stands for their number.
fn filled(quarters: usize, before: &str, item: impl FnMut() -> String) -> Vec<u8> {
    let mut left = share(LONGEST_FILE, quarters) - packed(&before.replace('@', "0")).len();
    let fits = |item: &String| {
        let rest = left.checked_sub(bytes(item, USUAL).expect("words").len());
        left = rest.unwrap_or(left);
        rest.is_some()
    };
    let items: Vec<String> = repeat_with(item).take_while(fits).collect();
    packed(&format!("{} {}", before.replace('@', &items.len().to_string()), items.join(" ")))
}

/// That x is in the union of s and t.
fn membership() -> String { "17 0 18 44 #2 5 'x 17 0 18 40 #2 5 's 5 't".to_string() }

fn as_words(bytes: &[u8]) -> String { bytes.iter().map(|byte| format!("{byte} ")).collect() }

/// Words for a Conj of so many heads that are literally false.
fn heads(many: usize) -> String { format!("1 #{many} {}", "0 F ".repeat(many)) }

/// Whole, it is a file that was recorded.
fn deep(quarters: usize) -> Vec<u8> {
    let file = packed(&format!("h: {}", nested(share(DEEP_FORALLS, quarters), &heads(share(DEEP_HEADS, quarters)))));
    assert!(quarters < WHOLE || file == include_bytes!("../../crates/replay_long/data/deep.task"));
    file
}

/// So many ForAlls with a guard each, whose text has 158 bytes and its coding 67: two numerals of 39 digits, and `str.prefixof` five times around one
/// of them. In the innermost a Conj of as many heads that are literally false as fit.
fn deep_guards(quarters: usize) -> Vec<u8> {
    let numeral = format!("0 {}", as_words(&[255; 16]));
    let guard = format!("1 10 0 {}{numeral}{numeral}", "17 0 18 2 #1 ".repeat(5));
    let around: String = (0..share(DEEP_FORALLS, quarters)).map(|i| format!("2 'x{i} 0 #1 {guard}")).collect();
    filled(quarters, &format!("h: {around} 1 #@"), || "0 F".to_string())
}

/// So many ForAlls without predicates, with names of NAME_BYTES bytes, and the same in the innermost.
fn deep_names(quarters: usize) -> Vec<u8> {
    let around: String = (0..share(DEEP_NAMES, quarters)).map(|i| format!("2 '{i:n>NAME_BYTES$} 0 #0 ")).collect();
    filled(quarters, &format!("h: {around} 1 #@"), || "0 F".to_string())
}

/// As many expressions as fit, and a constant for each name that is free in them.
fn expressions(quarters: usize) -> Vec<u8> {
    let (mut chance, pieces) = (Chance::new(SEED), share(PIECES, quarters));
    let (mut names, mut heads, mut many, mut file) = (BTreeSet::new(), String::new(), 0, Vec::new());
    loop {
        let (expr, free) = expression(&mut chance, pieces);
        names.extend(free);
        many += 1;
        heads += &format!("0 1 {expr} ");
        let constants: String = names.iter().map(|name| format!("{name} 1 ")).collect();
        let longer = packed(&format!("k: {constants} h: 1 #{many} {heads}"));
        if longer.len() > share(LONGEST_FILE, quarters) {
            return file;
        }
        file = longer;
    }
}

/// The longest expression of a draft, if it is a large one, and the names that are free in it; else that of another. All in words.
fn expression(chance: &mut Chance, pieces: usize) -> (String, Vec<String>) {
    loop {
        let draft = Draft::new(chance, Plan { pieces, items: 0, target: 0, chain: false });
        let exprs = draft.places.iter().filter(|place| place.spot == Spot::Piece('E'));
        if let Some(place) = exprs.max_by_key(|place| place.span.len()).filter(|place| place.span.len() >= LARGE) {
            return (as_words(draft.at(place)), draft.free(place).into_iter().map(as_words).collect());
        }
    }
}

/// The names of so many datatypes, each with that of its constructor.
type Names = Vec<(String, String)>;

fn numbered(many: usize) -> Names { (0..many).map(|i| (format!("D{i}"), format!("c{i}"))).collect() }

/// The place of a name among the 1,024 buckets of the archive's table of names.
fn bucket(name: &str) -> usize { name.bytes().fold(0, |hash, byte| (31 * hash + byte as usize) % 1024) }

/// Names that all fall into one bucket.
fn in_one_bucket(many: usize) -> Names {
    let fallen = |letter: char| (0..).map(move |i| format!("{letter}{i:x}")).filter(move |name| bucket(name) == 0).take(many);
    fallen('D').zip(fallen('c')).collect()
}

/// All names of so many bytes, in the order of their bytes.
fn names_of(length: u32) -> impl Iterator<Item = String> {
    let signs: Vec<u8> = (b'!'..=b'~').filter(|byte| is_symbol(&[b'a', *byte])).collect();
    (0..signs.len().pow(length)).filter_map(move |number| {
        let name: Vec<u8> = (0..length).rev().map(|place| signs[number / signs.len().pow(place) % signs.len()]).collect();
        is_symbol(&name).then(|| name.into_iter().map(char::from).collect())
    })
}

/// The shortest names there are.
fn short_names(many: usize) -> Vec<String> { (1..).flat_map(names_of).take(many).collect() }

/// The shortest in one bucket: 5 of the names there have 2 bytes, 424 have 3, and the rest 4.
fn short_names_in_one_bucket(many: usize) -> Vec<String> { (1..).flat_map(names_of).filter(|name| bucket(name) == 0).take(many).collect() }

/// Constants, and an And of as many Vars, each of them once.
fn constants(names: &[String]) -> Vec<u8> {
    let (declared, used): (String, String) = names.iter().map(|name| (format!("'{name} 0 "), format!("5 '{name} "))).unzip();
    packed(&format!("k: {declared} h: 0 1 13 #{} {used}", names.len()))
}

/// A Quantifier of so many names, and under it an And of so many Vars, which have the first of the names.
fn quantified(many: usize, variables: usize) -> Vec<u8> {
    let names = short_names(many);
    let binders: String = names.iter().map(|name| format!("'{name} 0 ")).collect();
    let vars: String = names.iter().take(variables).map(|name| format!("5 '{name} ")).collect();
    packed(&format!("h: 0 1 20 1 #{many} {binders} 13 #{variables} {vars}"))
}

/// So many Lets, each the second operand of the one around it with that one's name as its value, and in the innermost an And of so many Vars, which
/// have the names of the Lets in turns.
fn lets(many: usize, variables: usize) -> Vec<u8> {
    let names = short_names(many);
    let around: String = (1..many).map(|i| format!("16 '{} 5 '{} ", names[i], names[i - 1])).collect();
    let vars: String = names.iter().cycle().take(variables).map(|name| format!("5 '{name} ")).collect();
    packed(&format!("h: 0 1 16 '{} 1 1 {around} 13 #{variables} {vars}", names[0]))
}

/// Datatypes with one constructor of one field, and KVars of sorts that are some of them.
fn datatypes(quarters: usize, names: &Names) -> Vec<u8> {
    let mut chance = Chance::new(SEED);
    let declared: String = names.iter().map(|(datatype, constructor)| format!("'{datatype} #0 #1 '{constructor} #1 'f 0 ")).collect();
    filled(quarters, &format!("d: {declared} v:"), || {
        let sorts: String = (0..SORTS_OF_A_KVAR).map(|_| format!("11 '{} #0 ", names[chance.below(names.len())].0)).collect();
        format!("'k #{SORTS_OF_A_KVAR} {sorts}")
    })
}

/// So many constants, and in a Conj as many ForAlls without predicates over an empty Conj. Names have 2 bytes; there are 1,450 that no
/// constant has, and the ForAlls have them in turns.
fn binders(many: usize) -> Vec<u8> {
    let names: Vec<String> = names_of(2).collect();
    let constants: String = names[..many].iter().map(|name| format!("'{name} 0 ")).collect();
    let for_alls: String = names[BINDERS..].iter().cycle().take(many).map(|name| format!("2 '{name} 0 #0 C ")).collect();
    packed(&format!("k: {constants} h: 1 #{many} {for_alls}"))
}

/// So many Apps of one argument, each the head of the one around it, and in the innermost an And of so many variables as the head.
fn applications(apps: usize, variables: usize) -> Vec<u8> {
    let [before, members, behind] = [("17 0 ", apps), ("5 'x ", variables), ("#1 5 'y ", apps)].map(|(words, many)| words.repeat(many));
    packed(&format!("k: 'x 1 'y 1 h: 0 1 {before} 13 #{variables} {members} {behind}"))
}

/// Numerals from 2^127 on, which have 39 digits.
fn numerals(quarters: usize) -> Vec<u8> {
    let mut chance = Chance::new(SEED);
    filled(quarters, "h: 0 1 13 #@", || {
        let numeral: [u8; 16] = std::array::from_fn(|i| if i < 15 { chance.below(256) } else { 128 + chance.below(128) } as u8);
        format!("0 {}", as_words(&numeral))
    })
}

/// Strings of STRING_BYTES bytes.
fn strings(quarters: usize, byte: fn(&mut Chance) -> u8) -> Vec<u8> {
    let mut chance = Chance::new(SEED);
    filled(quarters, "h: 0 1 13 #@", || {
        let string: Vec<u8> = repeat_with(|| byte(&mut chance)).take(STRING_BYTES).collect();
        format!("3 #{STRING_BYTES} {}", as_words(&string))
    })
}

/// Accepted files of all the kinds that the rendering is compared on.
fn generated(quarters: usize) -> Vec<Vec<u8>> { by_chance(quarters, Chance::new(SEED), |_| true) }

/// The same with a name or a theory function as the head of every application, as Flux writes them. Drafts are made with such heads only, and
/// the files left out are those that were damaged into others: to leave out all of `generated` that have others would keep the smaller ones.
fn generated_flux(quarters: usize) -> Vec<Vec<u8>> { by_chance(quarters, Chance::with_plain_heads(SEED), has_plain_heads) }

/// Files of all kinds whose task is accepted and fits.
fn by_chance(quarters: usize, mut chance: Chance, fits: fn(&Task) -> bool) -> Vec<Vec<u8>> {
    let files = repeat_with(|| any_kind(&mut chance).2.case(&mut chance).file);
    files.filter(|file| accepted(file).is_ok_and(|task| fits(&task))).take(share(GENERATED, quarters)).collect()
}

/// Whether the head of every application is a name or a theory function.
fn has_plain_heads(task: &Task) -> bool {
    let (mut plain, mut constraints) = (true, vec![&task.constraint]);
    let mut visit = |expr: &Expr| if let Expr::App(head, ..) = expr { plain &= matches!(**head, Expr::Var(_) | Expr::ThyFunc(..)) };
    task.functions.iter().filter_map(|function| function.body.as_ref()).for_each(|body| in_exprs(from_ref(&body.expr), &mut visit));
    while let Some(constraint) = constraints.pop() {
        match constraint {
            Constraint::Pred(head) => in_pred(head, &mut visit),
            Constraint::Conj(members) => constraints.extend(members),
            Constraint::ForAll(_, preds, body) => {
                preds.iter().for_each(|pred| in_pred(pred, &mut visit));
                constraints.push(body);
            }
        }
    }
    plain
}
