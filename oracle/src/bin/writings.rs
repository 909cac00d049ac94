//! An independent rendering of the text of each piece of a task file, and a maker of test records. It reads pieces from a notation, encodes
//! them and writes their texts: the bytes that `crates/writings` is fed and the lines it has to give, with nothing of the crates in it.
//!
//!     cargo run --release --manifest-path oracle/Cargo.toml --target-dir target/cargo --bin writings -- crates/writings
//!
//! It writes `stdin` (the records) and `stdout` (a line for each) into the directory named. A record is a kind (1 byte: 0 sort,
//! 1 expression, 2 predicate, 3 datatype, 4 constant, 5 function, 6 KVar), the length of a datatype section and the length of the body
//! (2 bytes each, little-endian), and the body: the section, then one piece of that kind. The section's datatypes, and no others, are
//! declared. A line is the text's length in decimal, a space, the text, a line feed; a declaration's text ends in a line feed of its own.
//! The fixed cases carry the text they were made for, and the run stops where the rendering disagrees. Those made by chance carry none.
use oracle::chance::{Chance, SEED};
use std::{collections::HashSet, env, fs, io, iter, mem, path::Path, slice};
use Tree::*;

// ---- The forms of pieces

/// Kind, name, code, fields, text, and the text with an empty list in the last field where that differs.
type Form = (char, &'static str, &'static [u8], &'static str, &'static str, &'static str);

/// Kinds: `S` sort, `E` expression, `P` predicate, `D` datatype, `K` constant, `F` function, `V` KVar, `C` constructor, `B` name and sort.
/// Fields: one piece `S` `E`, a counted list of pieces `s` `e` `b` `c` or of names `n`, a name `N`, a string `T`, a number of 1, 2, 4 or
/// 16 bytes `1` `2` `4` `q`, a theory function `O`, the byte 0 or 1 `-` `+`. The format has a piece's fields in this order.
/// In a text, `$0` is the first field; each item of a list (LISTS) has a space in front, but not behind `(`.
const FORMS: &[Form] = &[
    ('S', "Int", &[0], "", "Int", ""), ('S', "Bool", &[1], "", "Bool", ""), ('S', "Real", &[2], "", "Real", ""),
    ('S', "Str", &[3], "", "String", ""), ('S', "BitVec", &[4, 5], "4", "(_ BitVec $0)", ""), ('S', "Param", &[6], "2", "T$0", ""),
    ('S', "Func", &[7], "SS", "(Array $0 $1)", ""), ('S', "Abs", &[8], "2S", "$1", ""), ('S', "Set", &[9], "s", "(Set$0)", "Set"),
    ('S', "Map", &[10], "s", "(Array$0)", "Array"), ('S', "Data", &[11], "Ns", "($0$1)", "$0"), ('E', "Numeral", &[0], "q", "$0", ""),
    ('E', "false", &[1, 0], "", "false", ""), ('E', "true", &[1, 1], "", "true", ""), ('E', "Real", &[2], "4", "$0", ""),
    ('E', "Text", &[3], "T", "\"$0\"", ""), ('E', "Bv", &[4], "q4", "(_ bv$0 $1)", ""), ('E', "Var", &[5], "N", "$0", ""),
    ('E', "Neg", &[7], "E", "(- $0)", ""), ('E', "Not", &[8], "E", "(not $0)", ""), ('E', "Add", &[9, 0], "EE", "(+ $0 $1)", ""),
    ('E', "Sub", &[9, 1], "EE", "(- $0 $1)", ""), ('E', "Mul", &[9, 2], "EE", "(* $0 $1)", ""),
    ('E', "Div", &[9, 3], "EE", "(div $0 $1)", ""), ('E', "Mod", &[9, 4], "EE", "(mod $0 $1)", ""),
    ('E', "Eq", &[10, 0], "EE", "(= $0 $1)", ""), ('E', "Ne", &[10, 1], "EE", "(not (= $0 $1))", ""),
    ('E', "Gt", &[10, 2], "EE", "(> $0 $1)", ""), ('E', "Ge", &[10, 3], "EE", "(>= $0 $1)", ""),
    ('E', "Lt", &[10, 4], "EE", "(< $0 $1)", ""), ('E', "Le", &[10, 5], "EE", "(<= $0 $1)", ""),
    ('E', "Imp", &[11], "EE", "(=> $0 $1)", ""), ('E', "Iff", &[12], "EE", "(= $0 $1)", ""), ('E', "And", &[13], "e", "(and$0)", "true"),
    ('E', "Or", &[14], "e", "(or$0)", "false"), ('E', "Ite", &[15], "EEE", "(ite $0 $1 $2)", ""),
    ('E', "Let", &[16], "NEE", "(let (($0 $1)) $2)", ""), ('E', "App", &[17, 0], "Ee", "($0$1)", "$0"),
    ('E', "As", &[17, 1], "SEe", "($1$2)", "$1"), ('E', "Thy", &[18], "O", "$0", ""),
    ('E', "Zero", &[18, 5], "1", "(_ zero_extend $0)", ""), ('E', "Sign", &[18, 6], "1", "(_ sign_extend $0)", ""),
    ('E', "Is", &[19], "NE", "((_ is $0) $1)", ""), ('E', "Exists", &[20, 0], "bE", "(exists ($0) $1)", ""),
    ('E', "Forall", &[20, 1], "bE", "(forall ($0) $1)", ""), ('P', "K", &[0], "Ne", "($0$1)", "$0"), ('P', "Expr", &[1], "E", "$0", ""),
    ('B', "", &[], "NS", "($0 $1)", ""), ('C', "", &[], "Nb", "($0$1)", ""), ('K', "", &[], "NS", "(declare-const $0 $1)\n", ""),
    // The field behind the last is put there by the writer: the parameters, or the arguments' names with their sorts
    ('D', "", &[], "N2c", "(declare-datatypes (($0 $1)) (($2)))\n", ""),
    ('D', "par", &[], "N2c", "(declare-datatypes (($0 $1)) ((par ($3) ($2))))\n", ""),
    ('F', "", &[], "N2sS-", "(declare-fun $0 ($2) $3)\n", ""), ('F', "body", &[], "N2sS+nE", "(define-fun $0 ($7) $3 $6)\n", ""),
    ('V', "", &[], "Ns", "(declare-fun $0 ($1) Bool)\n", ""),
];

/// The theory functions in their order of declaration; the two extends are forms. `emptyset` and `const` are written only with a sort.
const THEORY: [&str; 48] = [
    "str.len", "str.++", "str.prefixof", "str.suffixof", "str.contains", "", "", "(_ int2bv 8)", "bv2int", "(_ int2bv 32)", "bv2int",
    "(_ int2bv 64)", "bv2int", "(_ int2bv 128)", "bv2int", "bvule", "bvsle", "bvuge", "bvsge", "bvudiv", "bvsdiv", "bvsrem", "bvurem",
    "bvlshr", "bvashr", "bvand", "bvor", "bvxor", "bvnot", "bvadd", "bvneg", "bvsub", "bvmul", "bvshl", "bvugt", "bvsgt", "bvult", "bvslt",
    "emptyset", "singleton", "union", "intersection", "setminus", "subset", "member", "const", "select", "store",
];

/// The set functions from code 38 on as cvc5 has them (W-205).
const CVC5_SETS: [&str; 7] = ["set.empty", "set.singleton", "set.union", "set.inter", "set.minus", "set.subset", "set.member"];

const LISTS: &str = "sebcn";

// ---- The notation: a piece is a list of its form's name, if it has one, and its fields; the items of a last field stand without a list
// around them. `par` and `body` are left out, `Expr` may be. A form without fields, a Numeral, a Text in quotes and a Var may be a word.
// A quotation mark of a Text is written twice.

enum Tree { Word(String), List(Vec<Tree>) }

impl Tree {
    fn word(&self) -> &str { if let Word(word) = self { word } else { panic!("a list in place of a word") } }

    /// What a list holds; a word holds itself.
    fn items(&self) -> &[Tree] { if let List(items) = self { items } else { slice::from_ref(self) } }

    /// The form of a piece of this kind, and its fields: letters and what stands there.
    fn form(&self, kind: char) -> (&'static Form, Vec<(char, &[Tree])>) {
        let items = self.items();
        let (name, mut rest) = match (kind, self) {
            ('E', Word(word)) if word.starts_with('"') => ("Text", items),
            ('E', Word(word)) if word.starts_with(|c: char| c.is_ascii_digit()) => ("Numeral", items),
            ('E', Word(word)) if word != "true" && word != "false" => ("Var", items),
            ('P', _) if !["K", "Expr"].contains(&items[0].word()) => ("Expr", slice::from_ref(self)),
            ('S' | 'E' | 'P', _) => (items[0].word(), &items[1..]),
            ('D', _) => (if items[1].word() == "0" { "" } else { "par" }, items),
            ('F', _) => (if items.len() == 4 { "" } else { "body" }, items),
            _ => ("", items),
        };
        let form = FORMS.iter().find(|form| form.0 == kind && form.1 == name).expect(name);
        let mut fields = Vec::new();
        for (i, letter) in form.3.char_indices() {
            let (list, last) = (LISTS.contains(letter), i + 1 == form.3.len());
            let (field, behind) = rest.split_at(if list && last { rest.len() } else { !"+-".contains(letter) as usize });
            fields.push((letter, if list && !last { field[0].items() } else { field }));
            rest = behind;
        }
        assert!(rest.is_empty(), "{}", name);
        (form, fields)
    }
}

fn parsed(notation: &str) -> Vec<Tree> {
    let (mut open, mut word, mut quoted) = (vec![vec![]], String::new(), false);
    for c in notation.chars().chain([' ']) {
        quoted ^= c == '"';
        if quoted || !" ()".contains(c) {
            word.push(c);
            continue;
        }
        open.last_mut().unwrap().extend(Some(Word(mem::take(&mut word))).filter(|word| !word.word().is_empty()));
        if c == '(' {
            open.push(vec![]);
        } else if c == ')' {
            let list = List(open.pop().unwrap());
            open.last_mut().unwrap().push(list);
        }
    }
    assert!(open.len() == 1 && !quoted, "{}", notation);
    open.remove(0)
}

// ---- The bytes. The encoder stops at what no accepted file holds: a name that is no symbol, a wrong string, a level above 256, other
// arguments than inputs, a datatype without constructors. No reserved word is used as a name here.

/// What a symbol is made of; a digit is not first in one.
const SYMBOL: &str = "abcdefghijklmnopqrstuvwxyzABCDEFGHIJKLMNOPQRSTUVWXYZ~!@$%^&*_-+=<>.?/0123456789";

/// The content of a Text.
fn content(word: &str) -> String { word[1..word.len() - 1].replace("\"\"", "\"") }

/// Each quotation mark twice.
fn doubled(text: &str) -> String { text.chars().flat_map(|c| iter::repeat_n(c, 1 + (c == '"') as usize)).collect() }

fn number(bytes: usize, number: u128) -> Vec<u8> {
    assert!(bytes == 16 || number < 1 << (8 * bytes));
    number.to_le_bytes()[..bytes].to_vec()
}

/// `level` is that of the piece around.
fn encoded(kind: char, level: usize, tree: &Tree) -> Vec<u8> {
    let (&(_, name, code, ..), fields) = tree.form(kind);
    let (level, many) = (level + "SEP".contains(kind) as usize, |i: usize| fields[i].1.len());
    assert!(level + (name == "BitVec") as usize <= 256 && (kind != 'D' || many(2) > 0) && (name != "body" || many(2) == many(5)));
    let mut bytes = code.to_vec();
    for &(letter, items) in &fields {
        if LISTS.contains(letter) {
            bytes.extend(number(2, items.len() as u128));
        } else if "+-".contains(letter) {
            bytes.push((letter == '+') as u8);
        }
        for item in items {
            bytes.extend(match letter {
                'S' | 'E' | 's' | 'e' | 'b' | 'c' => encoded(letter.to_ascii_uppercase(), level, item),
                'N' | 'n' => {
                    let name = item.word();
                    let symbol = name.chars().all(|c| SYMBOL.contains(c)) && !name.starts_with(|c: char| c.is_ascii_digit());
                    assert!(symbol && (1..256).contains(&name.len()), "{}", name);
                    [&[name.len() as u8], name.as_bytes()].concat()
                }
                'T' => {
                    let text = content(item.word());
                    assert!(text.bytes().all(|b| (32..127).contains(&b)));
                    [&number(2, text.len() as u128), text.as_bytes()].concat()
                }
                _ => number(match letter { 'O' | '1' => 1, '2' => 2, '4' => 4, _ => 16 }, item.word().parse().unwrap()),
            });
        }
    }
    bytes
}

// ---- The text

/// What a datatype section declares: names of sorts and names of constructors; and whether the edition is that of cvc5.
struct Declared<'a> { cvc5: bool, sorts: HashSet<&'a str>, ctors: HashSet<&'a str> }

impl<'a> Declared<'a> {
    fn by(section: &'a [Tree], cvc5: bool) -> Self {
        let ctors = section.iter().flat_map(|datatype| datatype.items()[2..].iter().map(|ctor| ctor.items()[0].word())).collect();
        Declared { cvc5, sorts: section.iter().map(|datatype| datatype.items()[0].word()).collect(), ctors }
    }

    fn function(&self, code: &str) -> &'static str {
        let code = code.parse::<usize>().unwrap();
        if self.cvc5 && (38..45).contains(&code) { CVC5_SETS[code - 38] } else { THEORY[code] }
    }

    fn field(&self, letter: char, item: &Tree) -> String {
        match letter {
            'S' | 'E' => self.text(letter, item),
            's' | 'e' | 'b' | 'c' => format!(" {}", self.text(letter.to_ascii_uppercase(), item)),
            'N' | 'n' => item.word().to_string(),
            'T' => doubled(&content(item.word())),
            'O' if ["5", "6", "38", "45"].contains(&item.word()) => panic!("a theory function that is not written so"),
            'O' => self.function(item.word()).to_string(),
            _ => item.word().parse::<u128>().unwrap().to_string(),
        }
    }

    /// The head of an App with an output sort, which is written with a declared constructor and with the two functions that need it.
    fn head(&self, sort: &Tree, head: &Tree) -> String {
        let (form, fields) = head.form('E');
        let name = match (form.1, &fields[..]) {
            ("Var", [(_, [Word(name)])]) if self.ctors.contains(&name[..]) => name,
            ("Thy", [(_, [Word(code)])]) if code == "38" || code == "45" => self.function(code),
            _ => return self.text('E', head),
        };
        format!("(as {name} {})", self.text('S', sort))
    }

    fn text(&self, kind: char, tree: &Tree) -> String {
        let (&(_, name, _, _, full, bare), fields) = tree.form(kind);
        let items = |i: usize| -> &[Tree] { fields[i].1 };
        if name == "Data" && !self.sorts.contains(items(0)[0].word()) {
            return "Int".to_string();
        }
        let mut texts: Vec<String> = fields.iter().map(|(letter, field)| match (name, letter) {
            ("As", 'E') => self.head(&items(0)[0], &field[0]),
            _ => field.iter().map(|item| self.field(*letter, item)).collect(),
        }).collect();
        match name {
            "par" => texts.push((0..texts[1].parse().unwrap()).map(|i: u32| format!(" T{i}")).collect()),
            "body" => texts.push(items(5).iter().zip(items(2)).map(|(x, s)| format!(" ({}{})", x.word(), self.field('s', s))).collect()),
            _ => {}
        }
        let mut parts = if bare.is_empty() || !fields.last().unwrap().1.is_empty() { full } else { bare }.split('$');
        let first = parts.next().unwrap().to_string();
        parts.fold(first, |text, part| {
            let field = &texts[part[..1].parse::<usize>().unwrap()][..];
            let field = if text.ends_with('(') { field.trim_start() } else { field };
            text + field + &part[1..]
        })
    }
}

// ---- The records

const KINDS: &str = "SEPDKFV";

/// `section` is in the notation, and holds for the records that follow.
#[derive(Default)]
struct Cases { section: String, stdin: Vec<u8>, stdout: String, counts: [usize; 7], cvc5: usize }

impl Cases {
    fn add(&mut self, kind: char, notation: &str) -> String {
        let (section, pieces, at) = (parsed(&self.section), parsed(notation), KINDS.find(kind).unwrap());
        assert_eq!(pieces.len(), 1);
        let mut body: Vec<u8> = section.iter().flat_map(|datatype| encoded('D', 0, datatype)).collect();
        let end = body.len();
        body.extend(encoded(kind, 0, &pieces[0]));
        let [text, cvc5] = [false, true].map(|cvc5| Declared::by(&section, cvc5).text(kind, &pieces[0]));
        self.record(at as u8, end, &body, &text);
        // The other edition where it has another text
        if cvc5 != text {
            self.record(128 + at as u8, end, &body, &cvc5);
        }
        text
    }

    fn record(&mut self, kind: u8, end: usize, body: &[u8], text: &str) {
        assert!(body.len() <= 60_000 && text.len() <= 65_000);
        self.stdin.extend([vec![kind], number(2, end as u128), number(2, body.len() as u128), body.to_vec()].concat());
        self.stdout += &format!("{} {text}\n", text.len());
        self.counts[kind as usize % 128] += 1;
        self.cvc5 += (kind >= 128) as usize;
    }

    fn is(&mut self, kind: char, expected: &str, notation: &str) { assert_eq!(self.add(kind, notation), expected) }

    fn all(&mut self, kind: char, cases: &[(&str, &str)]) {
        cases.iter().for_each(|(expected, notation)| self.is(kind, expected, notation));
    }
}

// ---- The cases

/// Three datatypes with 1, 2 and no parameters.
const USUAL: &str = "(List 1 (nil) (cons (head (Param 0)) (tail (Data List (Param 0))))) (Pair 2 (pair (fst (Param 0)) (snd (Param 1)))) \
    (Color 0 (red) (green) (blue))";

/// D0 to D99 with the constructors c0 to c99 and d0 to d99, and fields of every form of sort.
fn hundred() -> String {
    let sorts = "Int|Bool|Real|Str|(BitVec 11)|(Param 4)|(Func Int Real)|(Abs 2 Bool)|(Set)|(Map Int Bool)|(Data U)|(Data V (Data U Int))";
    let fields = |i: usize| sorts.split('|').cycle().skip(i).take(i % 3).map(|sort| format!("(f{i} {sort})")).collect::<String>();
    (0..100).map(|i| format!("(D{i} {} (c{i} {}) (d{i} {}))", i * 600, fields(i), fields(i + 1))).collect()
}

/// A name of 255 bytes with every sign of a symbol in it.
fn long_name() -> String { SYMBOL.chars().cycle().take(255).collect() }

/// Every byte that a string may have.
fn printable() -> String { (32..127).map(char::from).collect() }

fn sorts(cases: &mut Cases) {
    cases.all('S', &[
        ("Int", "Int"), ("Bool", "Bool"), ("Real", "Real"), ("String", "Str"), ("(_ BitVec 0)", "(BitVec 0)"),
        ("(_ BitVec 1)", "(BitVec 1)"), ("(_ BitVec 4294967295)", "(BitVec 4294967295)"), ("T0", "(Param 0)"), ("T9", "(Param 9)"),
        ("T10", "(Param 10)"), ("T256", "(Param 256)"), ("T65535", "(Param 65535)"), ("(Array Int Bool)", "(Func Int Bool)"),
        ("(Array Int (Array Bool Real))", "(Func Int (Func Bool Real))"), ("(Array (Array Int Bool) Real)", "(Func (Func Int Bool) Real)"),
        ("Int", "(Abs 0 Int)"), ("T7", "(Abs 1 (Abs 65535 (Param 7)))"),
        ("(Array T0 (Array T1 Bool))", "(Abs 0 (Func (Param 0) (Abs 1 (Func (Param 1) Bool))))"), ("Set", "(Set)"),
        ("(Set Int)", "(Set Int)"), ("(Set Int Bool)", "(Set Int Bool)"), ("Array", "(Map)"), ("(Array Int)", "(Map Int)"),
        ("(Array Int Bool)", "(Map Int Bool)"), ("(Array Int Bool Real)", "(Map Int Bool Real)"),
        ("(Array Set Array)", "(Map (Set) (Map))"), ("(Set (Set (_ BitVec 8)))", "(Set (Set (BitVec 8)))"),
        ("(Set String)", "(Set (Abs 3 Str))"),
        // Data that no datatype declares
        ("Int", "(Data List)"), ("Int", "(Data List Bool)"), ("Int", "(Data List Bool (Func Real (BitVec 8)))"),
        ("(Set Int)", "(Set (Data D))"), ("(Array Int Int)", "(Func (Data D Bool) (Data E))"),
    ]);
    cases.section = USUAL.to_string();
    cases.all('S', &[
        ("List", "(Data List)"), ("(List Bool)", "(Data List Bool)"), ("(List Bool Real)", "(Data List Bool Real)"),
        ("Pair", "(Data Pair)"), ("(Pair Color Color)", "(Data Pair (Data Color) (Data Color))"),
        ("(List (List T0))", "(Data List (Data List (Param 0)))"), ("Color", "(Abs 0 (Data Color))"),
        ("(Set (Array Color (List Bool)))", "(Set (Map (Data Color) (Data List Bool)))"),
        // Declared around undeclared, and the other way round
        ("(List Int)", "(Data List (Data D (Data Color)))"), ("Int", "(Data D (Data Color) Bool)"),
        ("(Array Int Color)", "(Func (Data D) (Data Color))"),
        // Names of a constructor and of a field, and names close to declared ones
        ("Int", "(Data nil)"), ("Int", "(Data head Bool)"), ("Int", "(Data Lis)"), ("Int", "(Data Lists)"), ("Int", "(Data list)"),
    ]);
    // Names of 255 bytes that differ in one byte; B, which only a field names; a long section
    let long = &long_name()[..];
    cases.section = format!("(A 0 (a (f (Data B (BitVec 5) (Abs 1 Bool))))) ({long} 0 (b))");
    let others = [&format!("{}~", &long[..254]), &format!("~{}", &long[1..]), &long[..254], "B", "a"];
    cases.all('S', &[(long, &format!("(Data {long})")), ("A", "(Data A)")]);
    others.iter().for_each(|name| cases.is('S', "Int", &format!("(Data {name})")));
    cases.section = hundred();
    cases.all('S', &[
        ("D0", "(Data D0)"), ("D99", "(Data D99)"), ("Int", "(Data D100)"), ("Int", "(Data D)"), ("Int", "(Data c7)"), ("Int", "(Data V)"),
    ]);
}

fn constants(cases: &mut Cases) {
    for k in 0..39 {
        // 10^k and 10^k - 1
        let (power, nines) = (format!("1{}", "0".repeat(k)), if k == 0 { "0".to_string() } else { "9".repeat(k) });
        cases.all('E', &[(&power, &power), (&nines, &nines)]);
    }
    let numbers = "10 255 256 4294967296 9223372036854775808 18446744073709551615 18446744073709551616 18446744073709551617 \
        340282366920938463444927863358058659840 340282366920938463463374607431768211455";
    for number in numbers.split(' ') {
        cases.all('E', &[(number, number), (&format!("(_ bv{number} 128)"), &format!("(Bv {number} 128)"))]);
    }
    cases.all('E', &[
        ("true", "true"), ("false", "false"), ("0", "(Real 0)"), ("7", "(Real 7)"), ("4294967295", "(Real 4294967295)"),
        ("(_ bv0 0)", "(Bv 0 0)"), ("(_ bv5 8)", "(Bv 5 8)"), ("(_ bv9 4294967295)", "(Bv 9 4294967295)"), ("\"\"", "\"\""),
        ("\" \"", "\" \""), ("\"\"\"\"", "\"\"\"\""), ("\"a\"\"b\"", "\"a\"\"b\""),
        ("\"a(b;c|d\\e:~\"", "\"a(b;c|d\\e:~\""), ("x", "x"), ("true", "(Var true)"), ("Int", "Int"), ("T0", "T0"),
        ("-", "-"), ("and", "and"), ("~!@$%^&*_-+=<>.?/", "~!@$%^&*_-+=<>.?/"), (&long_name(), &long_name()),
    ]);
    // The last is the longest string in a body
    for length in [94, 255, 256, 5000, 59_997] {
        let text = format!("\"{}\"", doubled(&printable().chars().cycle().take(length).collect::<String>()));
        cases.is('E', &text, &text);
    }
}

fn operations(cases: &mut Cases) {
    cases.all('E', &[
        ("(- x)", "(Neg x)"), ("(not x)", "(Not x)"), ("(- 1)", "(Neg 1)"), ("(not true)", "(Not true)"), ("(+ x y)", "(Add x y)"),
        ("(- x y)", "(Sub x y)"), ("(* x y)", "(Mul x y)"), ("(div x y)", "(Div x y)"), ("(mod x y)", "(Mod x y)"), ("(= x y)", "(Eq x y)"),
        ("(not (= x y))", "(Ne x y)"), ("(> x y)", "(Gt x y)"), ("(>= x y)", "(Ge x y)"), ("(< x y)", "(Lt x y)"), ("(<= x y)", "(Le x y)"),
        ("(=> x y)", "(Imp x y)"), ("(= x y)", "(Iff x y)"), ("true", "(And)"), ("(and x)", "(And x)"), ("(and x y)", "(And x y)"),
        ("(and x y z)", "(And x y z)"), ("false", "(Or)"), ("(or x)", "(Or x)"), ("(or x y)", "(Or x y)"), ("(or x y z)", "(Or x y z)"),
        ("(ite x y z)", "(Ite x y z)"), ("(let ((x y)) z)", "(Let x y z)"), ("(let ((x (let ((y x)) y))) z)", "(Let x (Let y x y) z)"),
        ("(let ((x x)) (let ((x y)) z))", "(Let x x (Let x y z))"), ("(and true false (and (or x)))", "(And (And) (Or) (And (Or x)))"),
        ("(not (= (not (= x y)) (not (= y z))))", "(Ne (Ne x y) (Ne y z))"), ("((_ is cons) x)", "(Is cons x)"),
        ("((_ is red) (- x))", "(Is red (Neg x))"), ("(forall () x)", "(Forall () x)"), ("(exists () x)", "(Exists () x)"),
        ("(exists ((x Int)) x)", "(Exists ((x Int)) x)"), ("(forall ((x Int)) x)", "(Forall ((x Int)) x)"),
        ("(exists ((x Int) (y Bool)) y)", "(Exists ((x Int) (y Bool)) y)"),
        ("(forall ((x Int) (y Int)) y)", "(Forall ((x Int) (y Int)) y)"),
        ("(exists ((x Int) (y Int) (x Real)) z)", "(Exists ((x Int) (y (Data D)) (x Real)) z)"),
        ("(forall ((x (Set Int)) (y Int) (z T3)) z)", "(Forall ((x (Set Int)) (y (Data D Bool)) (z (Param 3))) z)"),
        ("(forall ((x Int)) (exists ((x Bool)) x))", "(Forall ((x Int)) (Exists ((x Bool)) x))"),
    ]);
    // Theory functions
    for code in (0..5).chain(7..38).chain(39..45).chain(46..48) {
        cases.is('E', THEORY[code], &format!("(Thy {code})"));
        cases.is('E', &format!("({} x y)", THEORY[code]), &format!("(As Bool (Thy {code}) x y)"));
    }
    cases.all('E', &[
        ("str.len", "(Thy 0)"), ("(_ int2bv 8)", "(Thy 7)"), ("bv2int", "(Thy 14)"), ("bvule", "(Thy 15)"), ("bvurem", "(Thy 22)"),
        ("bvslt", "(Thy 37)"), ("singleton", "(Thy 39)"), ("subset", "(Thy 43)"), ("member", "(Thy 44)"), ("store", "(Thy 47)"),
    ]);
    for width in [0, 1, 9, 10, 99, 100, 255] {
        cases.is('E', &format!("(_ zero_extend {width})"), &format!("(Zero {width})"));
        cases.is('E', &format!("(_ sign_extend {width})"), &format!("(Sign {width})"));
    }
}

/// Applications over the usual datatypes.
const APPLICATIONS: &[(&str, &str)] = &[
    // Constructors with an output sort, without one and outside an App, and names that are no constructors
    ("(as nil (List Int))", "(As (Data List Int) nil)"), ("nil", "(App nil)"), ("nil", "nil"),
    ("(as red Color)", "(As (Data Color) red)"), ("((as cons (List Int)) x nil)", "(As (Data List Int) cons x nil)"),
    ("(cons x nil)", "(App cons x nil)"), ("(as blue Int)", "(As (Data D Bool) blue)"),
    ("((as pair (Array Int Bool)) x)", "(As (Func Int Bool) pair x)"),
    ("((as cons Bool) (as red Color) (as nil Int))", "(As Bool cons (As (Data Color) red) (As Int nil))"), ("List", "(As Int List)"),
    ("(head x)", "(As Int head x)"), ("ni", "(As Int ni)"), ("nill", "(As Int nill)"), ("Nil", "(As Int Nil)"),
    ("(f x)", "(As Int f x)"), ("((_ is nil) (as nil Int))", "(Is nil (As Int nil))"), ("(let ((nil nil)) nil)", "(Let nil nil nil)"),
    // The two functions that need a sort
    ("(as emptyset (Set Int))", "(As (Set Int) (Thy 38))"), ("((as emptyset Set) x)", "(As (Set) (Thy 38) x)"),
    ("(as const (Array Int Color))", "(As (Map Int (Data Color)) (Thy 45))"),
    ("(as const Color)", "(As (Abs 0 (Data Color)) (Thy 45))"),
    ("((as const (Array Int Bool)) true)", "(As (Func Int Bool) (Thy 45) true)"),
    ("((as const Int) x y)", "(As (Data D) (Thy 45) x y)"),
    // Other heads
    ("(select x y)", "(As Int (Thy 46) x y)"), ("store", "(As (Set Int) (Thy 47))"), ("((_ int2bv 8) x)", "(App (Thy 7) x)"),
    ("((_ zero_extend 24) x)", "(As (BitVec 32) (Zero 24) x)"), ("((f x) y)", "(App (App f x) y)"), ("(f y)", "(App (App f) y)"),
    ("(f x)", "(As Int (As Int f x))"), ("((as cons Color) x)", "(App (As (Data Color) cons) x)"),
    ("(cons x)", "(As Int (App cons) x)"), ("(cons x)", "(As Int (App cons x))"),
    ("((as cons Color) x)", "(As Int (As (Data Color) cons x))"), ("(((as cons Int) x) y)", "(As Bool (As Int cons x) y)"),
    ("((as emptyset Int) x)", "(App (As Int (Thy 38)) x)"), ("((as const Bool) y)", "(As Int (As Bool (Thy 45) y))"),
    ("((forall ((x Int)) x) y)", "(App (Forall ((x Int)) x) y)"), ("(exists () x)", "(As Int (Exists () x))"),
    ("(true x)", "(As Int (And) x)"), ("(5 x)", "(App 5 x)"), ("((- x) y)", "(As Int (Neg x) y)"),
    ("((_ bv1 8) (f x))", "(App (Bv 1 8) (App f x))"), ("((_ is nil) x)", "(As Int (Is nil x))"),
    ("(\"(\" \")\")", "(App \"(\" \")\")"),
    // Declared names inside other forms
    ("(exists ((x Color) (y (List Color))) (as nil Int))", "(Exists ((x (Data Color)) (y (Data List (Data Color)))) (As Int nil))"),
    ("(ite (as nil Int) (let ((x (as nil Int))) (as nil Int)) (or (as nil Int)))",
        "(Ite (As Int nil) (Let x (As Int nil) (As Int nil)) (Or (As Int nil)))"),
];

fn applications(cases: &mut Cases) {
    // Nothing declared
    cases.all('E', &[
        ("f", "(App f)"), ("(f x)", "(App f x)"), ("(f x y)", "(App f x y)"), ("f", "(As Int f)"), ("(f x)", "(As Int f x)"),
        ("nil", "(As (Data List Int) nil)"), ("(cons x nil)", "(As (Data List Int) cons x nil)"),
        ("(as emptyset Int)", "(As (Data Color) (Thy 38))"), ("(as const Int)", "(As (Data List Int) (Thy 45))"),
    ]);
    cases.section = USUAL.to_string();
    cases.all('E', APPLICATIONS);
    cases.section = hundred();
    cases.all('E', &[
        ("(as c0 D0)", "(As (Data D0) c0)"), ("((as d99 (D7 Int)) x)", "(As (Data D7 (Data U)) d99 x)"), ("c100", "(As Int c100)"),
        ("f5", "(As Int f5)"), ("D5", "(As Int D5)"), ("c", "(As Int c)"),
    ]);
    // A constructor with the datatype's name, and one of 255 bytes
    let long = &long_name()[..];
    cases.section = format!("(D 0 (D) ({long}))");
    cases.all('E', &[("(as D D)", "(As (Data D) D)"), (&format!("(as {long} D)"), &format!("(As (Data D) {long})"))]);
    cases.is('E', &long[1..], &format!("(As Int {})", &long[1..]));
}

fn declarations(cases: &mut Cases) {
    cases.all('P', &[
        ("k", "(K k)"), ("(k x)", "(K k x)"), ("(k x (+ x y))", "(K k x (Add x y))"), ("x", "x"), ("true", "true"), ("true", "(And)"),
        ("(and x)", "(And x)"), ("nil", "(As Int nil)"),
    ]);
    cases.all('D', &[
        ("(declare-datatypes ((N 1)) ((par (T0) ((c (f T0))))))\n", "(N 1 (c (f (Param 0))))"),
        ("(declare-datatypes ((N 0)) (((c))))\n", "(N 0 (c))"),
        ("(declare-datatypes ((N 0)) (((c (f Int) (g Bool)) (d) (e (h Real)))))\n", "(N 0 (c (f Int) (g Bool)) (d) (e (h Real)))"),
        ("(declare-datatypes ((N 2)) ((par (T0 T1) ((c (f T0) (g T1) (h Int))))))\n", "(N 2 (c (f (Param 0)) (g (Param 1)) (h Int)))"),
        ("(declare-datatypes ((N 12)) ((par (T0 T1 T2 T3 T4 T5 T6 T7 T8 T9 T10 T11) ((c) (d (f T9))))))\n", "(N 12 (c) (d (f (Param 9))))"),
        // A datatype outside the section is not declared, in its own fields neither
        ("(declare-datatypes ((N 1)) ((par (T0) ((c (f Int) (g (Array Int Int)))))))\n", "(N 1 (c (f (Data N)) (g (Func (Data D) Int))))"),
    ]);
    let params = (0..1001).map(|i| format!("T{i}")).collect::<Vec<_>>().join(" ");
    cases.is('D', &format!("(declare-datatypes ((N 1001)) ((par ({params}) ((c)))))\n"), "(N 1001 (c))");
}

fn usual_declarations(cases: &mut Cases) {
    cases.section = USUAL.to_string();
    cases.all('P', &[("nil", "(K nil)"), ("(nil (as nil Color))", "(K nil (As (Data Color) nil))"), ("(as nil Int)", "(As Int nil)")]);
    cases.all('D', &[
        ("(declare-datatypes ((List 1)) ((par (T0) ((nil) (cons (head T0) (tail (List T0)))))))\n",
            "(List 1 (nil) (cons (head (Param 0)) (tail (Data List (Param 0)))))"),
        ("(declare-datatypes ((Pair 2)) ((par (T0 T1) ((pair (fst T0) (snd T1))))))\n", "(Pair 2 (pair (fst (Param 0)) (snd (Param 1))))"),
        ("(declare-datatypes ((Color 0)) (((red) (green) (blue))))\n", "(Color 0 (red) (green) (blue))"),
        ("(declare-datatypes ((N 0)) (((c (f List) (g Color) (h Int)))))\n", "(N 0 (c (f (Data List)) (g (Data Color)) (h (Data N))))"),
    ]);
    cases.all('K', &[
        ("(declare-const x Int)\n", "(x Int)"), ("(declare-const x (Array List Color))\n", "(x (Func (Data List) (Data Color)))"),
        ("(declare-const nil (Set Int))\n", "(nil (Abs 0 (Set (Data D))))"),
    ]);
    cases.all('F', &[
        ("(declare-fun f () Int)\n", "(f 0 () Int)"), ("(declare-fun f () Int)\n", "(f 3 () Int)"),
        ("(declare-fun f (Bool) T0)\n", "(f 3 (Bool) (Param 0))"),
        ("(declare-fun f ((List Bool) Int) Color)\n", "(f 0 ((Data List Bool) (Data D Bool)) (Data Color))"),
        ("(define-fun f () Int 7)\n", "(f 0 () Int () 7)"), ("(define-fun f () Int 7)\n", "(f 3 () Int () 7)"),
        ("(define-fun f ((x Int)) Bool (= x 0))\n", "(f 0 (Int) Bool (x) (Eq x 0))"),
        ("(define-fun f ((x List) (y Int)) Color (as red Int))\n", "(f 3 ((Data List) (Data D)) (Data Color) (x y) (As Int red))"),
    ]);
    cases.all('V', &[
        ("(declare-fun k () Bool)\n", "(k)"), ("(declare-fun k ((List Bool)) Bool)\n", "(k (Data List Bool))"),
        ("(declare-fun nil (Int (_ BitVec 8)) Bool)\n", "(nil (Data D Int) (BitVec 8))"),
    ]);
}

fn counts(cases: &mut Cases) {
    for many in [255, 256, 300] {
        let (x, int, field, ctor) = (" x".repeat(many), " Int".repeat(many), " (x Int)".repeat(many), " (c)".repeat(many));
        cases.is('S', &format!("(Set{int})"), &format!("(Set{int})"));
        cases.is('E', &format!("(and{x})"), &format!("(And{x})"));
        cases.is('E', &format!("(f{x})"), &format!("(App f{x})"));
        cases.is('E', &format!("(exists ({}) y)", field.trim()), &format!("(Exists ({field}) y)"));
        cases.is('P', &format!("(k{x})"), &format!("(K k{x})"));
        cases.is('D', &format!("(declare-datatypes ((N 0)) (({})))\n", ctor.trim()), &format!("(N 0{ctor})"));
        cases.is('D', &format!("(declare-datatypes ((N 0)) (((c{field}))))\n"), &format!("(N 0 (c{field}))"));
        cases.is('F', &format!("(define-fun f ({}) Int y)\n", field.trim()), &format!("(f 0 ({int}) Int ({x}) y)"));
        cases.is('V', &format!("(declare-fun k ({}) Bool)\n", int.trim()), &format!("(k{int})"));
    }
    // A text longer than its body
    let numerals = format!(" {}", u128::MAX).repeat(1624);
    cases.is('E', &format!("(or{numerals})"), &format!("(Or{numerals})"));
}

/// A form around itself as often as `times` says, `@` being the inner one's place, and a leaf in the middle.
fn nested(times: usize, form: &str, leaf: &str) -> String {
    let (before, after) = form.split_once('@').unwrap();
    [&before.repeat(times), leaf, &after.repeat(times)].concat()
}

fn levels(cases: &mut Cases) {
    cases.section = USUAL.to_string();
    for (text, form) in [
        ("@", "(Abs 3 @)"), ("(Array Int @)", "(Func Int @)"), ("(Array @ Int)", "(Func @ Int)"), ("(Set @)", "(Set @)"),
        ("(Array Int @ Bool)", "(Map Int @ Bool)"), ("(List @)", "(Data List @)"),
    ] {
        let (deep, sort) = (nested(254, text, "(_ BitVec 8)"), nested(254, form, "(BitVec 8)"));
        cases.is('S', &deep, &sort);
        cases.is('K', &format!("(declare-const c {deep})\n"), &format!("(c {sort})"));
        cases.is('D', &format!("(declare-datatypes ((N 0)) (((c (f {deep})))))\n"), &format!("(N 0 (c (f {sort})))"));
        cases.is('V', &format!("(declare-fun k (Int {deep}) Bool)\n"), &format!("(k Int {sort})"));
        let (deep, sort) = (nested(254, text, "Color"), nested(254, form, "(Data Color)"));
        cases.is('E', &format!("(as nil {deep})"), &format!("(As {sort} nil)"));
        cases.is('E', &format!("(forall ((x {deep})) x)"), &format!("(Forall ((x {sort})) x)"));
    }
    cases.is('S', "Int", &nested(255, "(Data D @)", "Real"));
    for (text, form) in [
        ("(- @)", "(Neg @)"), ("(not (= @ y))", "(Ne @ y)"), ("(+ y @)", "(Add y @)"), ("(and @)", "(And @)"), ("(or x @ y)", "(Or x @ y)"),
        ("(ite @ x y)", "(Ite @ x y)"), ("(ite x y @)", "(Ite x y @)"), ("(let ((x @)) y)", "(Let x @ y)"),
        ("(let ((x y)) @)", "(Let x y @)"), ("@", "(App @)"), ("@", "(As Int @)"), ("(@ y)", "(App @ y)"), ("(@ x y)", "(As Int @ x y)"),
        ("(f @)", "(App f @)"), ("((as cons Bool) x @)", "(As Bool cons x @)"), ("((_ is c) @)", "(Is c @)"),
        ("(forall ((x Int)) @)", "(Forall ((x Int)) @)"),
    ] {
        let (deep, expr) = (nested(255, text, "x"), nested(255, form, "x"));
        cases.is('E', &deep, &expr);
        cases.is('F', &format!("(define-fun f () Int {deep})\n"), &format!("(f 0 () Int () {expr})"));
        cases.is('E', &nested(254, text, "(as red Color)"), &nested(254, form, "(As (Data Color) red)"));
        cases.is('P', &nested(200, text, "(f x)"), &nested(200, form, "(App f x)"));
        cases.is('P', &format!("(k y {})", nested(254, text, "5")), &format!("(K k y {})", nested(254, form, "5")));
    }
}

// ---- Cases by chance

const NAMES: [&str; 9] = ["x", "y", "f", "D", "List", "Nil", "Cons", "<=>", "T0"];

/// Makes pieces by chance.
struct Maker(Chance);

impl Maker {
    fn signs(&mut self, from: &str) -> String {
        let most = [20, 20, 20, 255][self.0.below(4)];
        (0..self.0.below(most)).map(|_| from.as_bytes()[self.0.below(from.len())] as char).collect()
    }

    fn number(&mut self, bits: usize) -> String {
        ((0..bits / 8).fold(0, |high, _| high << 8 | self.0.below(256) as u128) >> self.0.below(bits)).to_string()
    }

    /// A piece in the notation; a sort or an expression has others in it from depth 3 on, and none at depth 0. Its lists are of one length.
    fn piece(&mut self, kind: char, depth: usize) -> String {
        let fits = |form: &&Form| !"SE".contains(kind) || if form.3.contains(|c| "SEse".contains(c)) { depth > 0 } else { depth < 3 };
        let forms: Vec<&Form> = FORMS.iter().filter(|form| form.0 == kind).filter(fits).collect();
        let (_, mut name, _, mut fields, ..) = *forms[self.0.below(forms.len())];
        // Apps with an output sort are made more often
        if kind == 'E' && depth > 0 && self.0.below(5) == 0 {
            (name, fields) = ("As", "SEe");
        }
        let (below, many) = (depth.saturating_sub("SE".contains(kind) as usize), self.0.below(4).max((kind == 'D') as usize));
        let mut notation = if "SEP".contains(kind) { format!("({name}") } else { "(".to_string() };
        for (i, letter) in fields.char_indices().filter(|(_, letter)| !"+-".contains(*letter)) {
            let (times, list) = if LISTS.contains(letter) { (many, i + 1 < fields.len()) } else { (1, false) };
            notation += if list { " (" } else { " " };
            for _ in 0..times {
                notation += &match (letter, name) {
                    ('E', "As") if self.0.below(4) == 0 => ["(Thy 38)", "(Thy 45)"][self.0.below(2)].to_string(),
                    ('E', "As") if self.0.below(3) > 0 => NAMES[self.0.below(9)].to_string(),
                    ('S' | 's', _) => self.piece('S', below.min(3)),
                    ('E' | 'e' | 'b' | 'c', _) => self.piece(letter.to_ascii_uppercase(), below),
                    ('N' | 'n', _) if self.0.below(12) == 0 => format!("Q{}", self.signs(SYMBOL)),
                    ('N' | 'n', _) => NAMES[self.0.below(9)].to_string(),
                    ('T', _) => format!("\"{}\"", doubled(&self.signs(&printable()))),
                    ('O', _) => ["7", "14", "37", "39", "44", "46"][self.0.below(6)].to_string(),
                    ('2', "") if kind == 'D' => "0".to_string(),
                    ('2', "par") => (1 + self.0.below(12)).to_string(),
                    _ => self.number(match letter { '1' => 8, '2' => 16, '4' => 32, _ => 128 }),
                };
                notation += " ";
            }
            notation += if list { ")" } else { "" };
        }
        notation + ")"
    }
}

fn by_chance(cases: &mut Cases) {
    let mut maker = Maker(Chance::new(SEED));
    for i in 0..420 {
        let kind = KINDS.as_bytes()[i % 7] as char;
        let piece = maker.piece(kind, 5);
        cases.section = (0..maker.0.below(5)).map(|_| maker.piece('D', 2)).collect();
        cases.section += if i % 14 == 3 { &piece } else { "" }; // Every other datatype is in its own section
        cases.add(kind, &piece);
    }
}

fn main() -> io::Result<()> {
    let directory = env::args().nth(1).expect("the directory to write into");
    let mut cases = Cases::default();
    for group in [sorts, constants, operations, applications, declarations, usual_declarations, counts, levels, by_chance] {
        cases.section.clear();
        group(&mut cases);
    }
    eprintln!("{} records, by kind {:?}, {} for cvc5", cases.counts.iter().sum::<usize>(), cases.counts, cases.cvc5);
    fs::create_dir_all(&directory)?;
    fs::write(Path::new(&directory).join("stdin"), cases.stdin)?;
    fs::write(Path::new(&directory).join("stdout"), cases.stdout)
}
