//! Fixed task files: the table of the papers, and what stands at a limit or a step beyond it.
use crate::faults::Case;
use crate::task::{DEEPEST, LONGEST_FILE, TRAILER};
use crate::words::{closed, joined, offsets, packed, sealed, sections, DECLARED, S, USUAL};

/// The accepted lines of the papers' table beside S: a name, the declarations and assertions, a line for each, and the file in words.
pub const TABLE: [(&str, &str, &str); 9] = [
    ("empty-and", "(assert (=> (not true) false))", "h: 0 1 13 #0"),
    ("empty-or", "(assert (=> (not false) false))", "h: 0 1 14 #0"),
    ("unguarded", "(declare-const e Bool)\n(assert (=> (not e) false))", "k: 'e 1 h: 0 1 E"),
    ("kvar-0-guards", "(declare-fun k () Bool)\n(assert (=> true k))", "v: 'k #0 h: 0 K"),
    ("kvar-1-guard", "(declare-const p Bool)\n(declare-fun k () Bool)\n(assert (forall ((x Int)) (=> p k)))",
        "k: 'p 1 v: 'k #0 h: 2 'x S #1 P 0 K"),
    ("kvar-2-guards", "(declare-const p Bool)\n(declare-fun k () Bool)\n(assert (forall ((x Int)) (=> (and p false) k)))",
        "k: 'p 1 v: 'k #0 h: 2 'x S #2 P F 0 K"),
    ("par", "(declare-datatypes ((N 1)) ((par (T0) ((c (f T0))))))", "d: 'N #1 #1 'c #1 'f 6 #0"),
    ("undeclared", "(declare-const c Int)", "k: 'c 11 'U #2 1 2"),
    ("true-head", "", "h: 0 T"),
];

/// A comment with a line feed, and behind it what would be a command.
pub const ACCIDENT: &str = "c: #12 10 40 99 104 101 99 107 45 115 97 116 41 v: 'k #0 h: 0 K";

/// Forms around themselves: a name, how often so that the last piece is at level 256, what is before, the form's two sides and the middle.
const NESTED: [(&str, usize, &str, &str, &str, &str); 24] = [
    ("sort", 255, "k: 'c", "9 #1", "0", ""),
    ("func-left", 255, "k: 'c", "7", "0", "1"),
    ("func-right", 255, "v: 'k #1", "7 0", "0", ""),
    ("abs", 255, "k: 'c", "8 #1", "2", ""),
    ("map", 255, "d: 'D #0 #1 'c #1 'f", "10 #2 0", "0", ""),
    ("data", 255, "d: 'D #1 #1 'c #0 k: 'c", "11 'D #1", "0", ""),
    ("undeclared", 255, "k: 'c", "11 'U #1", "0", ""),
    ("bitvec", 254, "k: 'c", "9 #1", "4 5 8 *3", ""),
    ("expr", 255, "f: 'f #0 #0 0 1 #0", "7", "E", ""),
    ("ne", 255, "f: 'f #0 #0 0 1 #0", "10 1 E", "E", ""),
    ("and", 255, "f: 'f #0 #0 0 1 #0", "13 #1", "E", ""),
    ("or", 255, "f: 'f #0 #0 0 1 #0", "14 #2 E", "E", ""),
    ("ite", 255, "f: 'f #0 #0 0 1 #0", "15", "E", "E E"),
    ("let", 255, "f: 'f #0 #0 0 1 #0", "16 'v", "E", "E"),
    ("head", 255, "f: 'f #0 #0 0 1 #0", "17 0", "E", "#0"),
    ("head-of-one", 255, "f: 'f #0 #0 0 1 #0", "17 1 0", "E", "#1 E"),
    ("argument", 255, "f: 'g #0 #0 0 0 'f #0 #0 0 1 #0", "17 0 5 'g #1", "E", ""),
    ("emptyset", 254, "f: 'f #0 #0 0 1 #0", "8", "17 1 0 18 38 #0", ""),
    ("tester", 255, "d: 'D #0 #1 'c #0 f: 'f #0 #0 0 1 #0", "19 'c", "E", ""),
    ("quantifier", 255, "f: 'f #0 #0 0 1 #0", "20 1 #1 'x 0", "E", ""),
    ("pred", 254, "h:", "1 #1", "0 K", ""),
    ("pred-expr", 253, "h:", "1 #1", "0 1 E", ""),
    ("argument-of-pred", 253, "v: 'k1 #1 0 h: 0 0 'k1 #1", "12 E", "E", ""),
    ("constraint", 255, "h:", "1 #1", "C", ""),
];

/// A file for each place of a name.
const NAMED: [(&str, &str); 15] = [
    ("datatype", "d: @ #0 #1 'c #0"), ("constructor", "d: 'D #0 #1 @ #0"), ("field", "d: 'D #0 #1 'c #1 @ 0"), ("constant", "k: @ 0"),
    ("function", "f: @ #0 #0 0 0"), ("argument", "f: 'f #0 #1 0 0 1 #1 @ E"), ("kvar", "v: @ #0"), ("sort", "k: 'c 11 @ #0"),
    ("var", "k: @ 0 h: 0 1 5 @"), ("let", "h: 0 1 16 @ E E"), ("tester", "d: 'D #0 #1 @ #0 h: 0 1 19 @ E"),
    ("quantified", "h: 0 1 20 0 #1 @ 0 E"), ("head", "v: @ #0 h: 0 0 @ #0"), ("guard", "v: @ #0 h: 2 'x 0 #1 0 @ #0 0 K"),
    ("binder", "h: 2 @ 0 #0 0 K"),
];

/// A file for each counted list, with a count that its section cannot hold.
const COUNTED: [(&str, &str); 14] = [
    ("constructors", "d: 'D #0 #65535 'c #0"), ("fields", "d: 'D #0 #1 'c #65535 'f 0"), ("inputs", "f: 'f #0 #65535 0 0 0"),
    ("arguments", "f: 'f #0 #1 0 0 1 #65535 'x E"), ("sorts", "v: 'k #65535 0"), ("sort-arguments", "k: 'c 9 #65535 0"),
    ("members", "h: 0 1 13 #65535 E"), ("app-arguments", "h: 0 1 17 0 E #65535 E"), ("quantified", "h: 0 1 20 0 #65535 'x 0 E"),
    ("kvar-arguments", "h: 0 0 'k #65535 E"), ("constraints", "h: 1 #65535 0 K"), ("guards", "h: 2 'x 0 #65535 P 0 K"),
    ("comment", "c: #65535 97"), ("string", "h: 0 1 3 #65535 34"),
];

/// Strings with quotation marks: one alone, two, one between two bytes, at both ends, in front of a byte that 4 covers, and around a command.
const QUOTED: [(&str, u8, &str); 6] = [
    ("quote", 0, "\"\""), ("quotes", 0, "\"\"\""), ("between", 0, "\"a\"b"), ("ends", 0, "\"\"a\""), ("line-feed", 4, "#2 34 10"),
    ("command", 0, "\"a\"))(check-sat)(\"b"),
];

/// What the source cannot write, arguments other than inputs and repeated binders, in places that are written and in others; and one file
/// that only looks so.
const FAULTY: [(&str, u8, &str); 20] = [
    ("no-constructors", 5, "d: 'D #0 #0"), ("bitvec-of-sort", 12, "k: 'c 4 0"), ("bitvec-of-bitvec", 12, "k: 'c 4 4 5 *4"),
    ("width", 12, "k: 'c 5 8 *3"), ("width-of-undeclared", 12, "k: 'c 11 'U #1 5 *4"), ("weak-kvar", 14, "h: 0 1 6"),
    ("weak-kvar-of-true-head", 14, "h: 2 'x 0 #1 1 6 0 T"), ("emptyset", 13, "h: 0 1 18 38"), ("const", 13, "h: 0 1 18 45"),
    ("emptyset-without-sort", 13, "h: 0 1 17 0 18 38 #0"), ("const-as-argument", 13, "h: 0 1 17 1 0 18 45 #1 18 45"),
    ("more-arguments", 6, "f: 'f #0 #1 0 0 1 #2 'x 'y E"), ("fewer-arguments", 6, "f: 'f #0 #1 0 0 1 #0 E"),
    ("no-inputs", 6, "f: 'f #0 #0 0 1 #1 'x E"), ("256-inputs", 6, "f: 'f #0 #256 *256 0 1 #0 E"), ("repeated", 7, "h: X X 0 K"),
    ("repeated-around-true", 7, "h: X Y X 0 T"), ("repeated-around-nothing", 7, "h: X 1 #2 0 K Y 1 #1 Y C"),
    ("all", 4, "k: 'c 5 *4 f: 'f #0 #1 0 0 1 #0 E h: X X 0 0 'let #0"), ("repeated-beside", 0, "h: 1 #3 X 0 K X 0 K X Y 0 K"),
];

/// ForAlls named like something declared or bound, of each kind, with heads under them and without; the merge task of W-207 comes first. Then
/// names that are nearly declared, where the bytes of `Aa` and `BB` are one number to the base 31; and other faults beside that of 15.
const CLASHING: [(&str, u8, &str); 29] = [
    ("merge", 15, "k: 'lim 0 h: 2 'x 0 #1 1 10 4 5 'x 5 'lim 2 'lim 0 #0 0 1 10 3 5 'lim 5 'x"),
    ("constant", 15, "k: 'x 0 h: X 0 K"), ("function", 15, "f: 'x #0 #0 0 0 h: X 0 K"), ("constructor", 15, "d: 'D #0 #1 'x #0 h: X 0 K"),
    ("field", 15, "d: 'D #0 #1 'c #1 'x 0 h: X 0 K"), ("kvar", 15, "v: 'x #0 h: X 0 K"), ("datatype", 0, "d: 'x #0 #1 'c #0 h: X 0 K"),
    ("argument", 0, "f: 'f #0 #1 0 0 1 #1 'x E h: X 0 K"), ("let", 0, "h: X 0 1 16 'x E 5 'x"), ("quantifier", 0, "h: X 0 1 20 0 #1 'x 0 5 'x"),
    ("data-sort", 0, "k: 'c 11 'x #0 h: X 0 K"), ("var", 0, "h: X 0 1 5 'x"), ("tester", 10, "h: X 0 1 19 'x E"), ("head", 10, "h: X 0 0 'x #0"),
    ("around-true", 15, "k: 'x 0 h: X 0 T"), ("around-nothing", 15, "v: 'k #0 'x #0 h: 1 #3 0 K C 1 #2 Y 0 K Z X C"),
    ("last-of-each", 15, "d: 'A #0 #1 'a #0 'D #0 #2 'b #0 'c #2 'f 0 'x 0 k: 'c 0 f: 'f #0 #0 0 0 v: 'k #0 h: Y X 0 K"),
    ("datatype-and-kvar", 15, "d: 'x #0 #1 'c #0 v: 'x #0 h: X 0 K"),
    ("shorter", 0, "k: 'xx 0 h: X 0 K"), ("longer", 0, "k: 'x 0 h: 2 'xx 0 #0 0 K"), ("other-case", 0, "k: 'X 0 h: X 0 K"),
    ("same-number", 0, "k: 'Aa 0 h: 2 'BB 0 #0 0 K"), ("same-number-and-name", 15, "k: 'Aa 0 'BB 0 h: 2 'BB 0 #0 0 K"),
    ("and-repeated", 7, "k: 'x 0 h: X Y Y 0 K"), ("behind-repeated", 7, "k: 'x 0 h: 1 #2 Y Y 0 K X 0 K"),
    ("repeated-itself", 7, "k: 'x 0 h: X X C"), ("and-arguments", 6, "k: 'x 0 f: 'f #0 #1 0 0 1 #0 E h: X 0 K"),
    ("and-form", 14, "k: 'x 0 h: X 0 1 6"), ("and-name", 4, "k: 'x 0 h: X 0 1 5 'let"),
];

/// Names, where they are known and where they are not: of declarations, in the constraint and in bodies.
const DECLARATIONS: [(&str, u8, &str); 27] = [
    ("constant", 0, "k: 'a 0 h: 0 1 5 'a"), ("constructor", 0, "d: 'D #0 #1 'a #0 h: 0 1 5 'a"),
    ("field", 0, "d: 'D #0 #1 'c #1 'a 0 h: 0 1 5 'a"), ("function", 0, "f: 'a #0 #0 0 0 h: 0 1 5 'a"),
    ("last-function", 0, "f: 'f #0 #0 0 0 'a #0 #0 0 0 h: 0 1 5 'a"), ("constant-in-body", 0, "k: 'a 0 f: 'f #0 #0 0 1 #0 5 'a"),
    ("constructor-in-body", 0, "d: 'D #0 #1 'a #0 f: 'f #0 #0 0 1 #0 5 'a"),
    ("field-in-body", 0, "d: 'D #0 #1 'c #1 'a 0 f: 'f #0 #0 0 1 #0 5 'a"), ("function-before", 0, "f: 'a #0 #0 0 0 'f #0 #0 0 1 #0 5 'a"),
    ("function-itself", 10, "f: 'a #0 #0 0 1 #0 5 'a"), ("function-behind", 10, "f: 'f #0 #0 0 1 #0 5 'a 'a #0 #0 0 0"),
    ("function-again", 0, "f: 'a #0 #0 0 0 'a #0 #0 0 1 #0 5 'a"), ("argument", 0, "f: 'f #0 #2 0 0 0 1 #2 'a 'b 13 #2 5 'a 5 'b"),
    ("argument-in-next", 10, "f: 'f #0 #1 0 0 1 #1 'a E 'g #0 #0 0 1 #0 5 'a"),
    ("argument-of-next", 10, "f: 'g #0 #0 0 1 #0 5 'a 'f #0 #1 0 0 1 #1 'a E"),
    ("argument-in-constraint", 10, "f: 'f #0 #1 0 0 1 #1 'a E h: 0 1 5 'a"),
    ("kvar", 10, "v: 'a #0 h: 0 1 5 'a"), ("datatype", 10, "d: 'a #0 #1 'c #0 h: 0 1 5 'a"), ("sort", 10, "k: 'c 11 'a #0 h: 0 1 5 'a"),
    ("true", 10, "h: 0 1 5 'true"), ("and", 10, "h: 0 1 17 0 5 'and #2 E E"), ("plus", 10, "h: 2 'x 0 #1 1 17 0 5 '+ #2 5 'x 5 'x 0 K"),
    ("constant-true", 0, "k: 'true 1 h: 0 1 5 'true"), ("shorter", 10, "k: 'aa 0 h: 0 1 5 'a"), ("longer", 10, "k: 'a 0 h: 0 1 5 'aa"),
    ("other-case", 10, "k: 'a 0 h: 0 1 5 'A"), ("same-number", 10, "k: 'Aa 0 h: 0 1 5 'BB"),
];

/// Names of Lets, Quantifiers and ForAlls, in their scopes and outside.
const BINDERS: [(&str, u8, &str); 30] = [
    ("let", 0, "h: 0 1 16 'a E 5 'a"), ("let-own", 10, "h: 0 1 16 'a 5 'a E"), ("let-behind", 10, "h: 0 1 13 #2 16 'a E 5 'a 5 'a"),
    ("let-before", 10, "h: 0 1 13 #2 5 'a 16 'a E 5 'a"), ("let-in-let", 0, "h: 0 1 16 'a E 16 'b 5 'a 13 #2 5 'a 5 'b"),
    ("let-of-same-name", 0, "h: 0 1 16 'a E 16 'a 5 'a 5 'a"), ("let-again-ends", 0, "h: 0 1 16 'a E 13 #2 16 'a E 5 'a 5 'a"),
    ("let-in-value", 10, "h: 0 1 16 'a 16 'b E 5 'b 5 'b"), ("let-in-body", 0, "f: 'f #0 #0 0 1 #0 16 'a E 5 'a"),
    ("let-own-in-body", 10, "f: 'f #0 #0 0 1 #0 16 'a 5 'a E"), ("let-in-next-head", 10, "h: 1 #2 0 1 16 'a E E 0 1 5 'a"),
    ("let-in-next-function", 10, "f: 'f #0 #0 0 1 #0 16 'a E E 'g #0 #0 0 1 #0 5 'a"),
    ("let-of-argument", 0, "f: 'f #0 #1 0 0 1 #1 'a 16 'a 5 'a 5 'a"), ("let-of-function", 10, "f: 'a #0 #0 0 1 #0 16 'a 5 'a 5 'a"),
    ("quantifier", 0, "h: 0 1 20 0 #2 'a 0 'b 0 13 #2 5 'a 5 'b"), ("quantifier-empty", 10, "h: 0 1 20 1 #0 5 'a"),
    ("quantifier-behind", 10, "h: 0 1 13 #2 20 1 #1 'a 0 5 'a 5 'a"), ("quantifier-before", 10, "h: 0 1 11 5 'a 20 1 #1 'a 0 5 'a"),
    ("quantifier-twice", 0, "h: 0 1 20 0 #2 'a 0 'a 1 5 'a"), ("quantifier-twice-behind", 10, "h: 0 1 13 #2 20 0 #2 'a 0 'a 1 5 'a 5 'a"),
    ("quantifier-again-ends", 0, "h: 0 1 20 0 #1 'a 0 13 #2 20 1 #1 'a 0 5 'a 5 'a"), ("binder", 0, "h: 2 'a 0 #1 1 5 'a 0 1 5 'a"),
    ("binder-beside", 10, "h: 1 #2 2 'a 0 #0 0 K 0 1 5 'a"), ("binder-before", 10, "h: 1 #2 0 1 5 'a 2 'a 0 #0 0 K"),
    ("binder-below", 10, "h: 2 'x 0 #1 1 5 'a 2 'a 0 #0 0 K"), ("binder-next", 10, "h: 1 #2 2 'a 0 #0 0 K 2 'b 0 #1 1 5 'a 0 K"),
    ("binder-in-conj", 0, "h: 2 'a 0 #0 1 #2 0 K 1 #1 2 'b 0 #1 1 5 'a 0 1 13 #2 5 'a 5 'b"),
    ("binder-beside-same", 10, "h: 1 #3 2 'a 0 #0 0 K 2 'a 0 #1 1 5 'a 0 1 5 'a 0 1 5 'a"),
    ("binder-of-let", 0, "h: 2 'a 0 #0 0 1 16 'a 5 'a 5 'a"), ("let-in-guard", 10, "h: 2 'x 0 #1 1 16 'a E E 0 1 5 'a"),
];

/// An unknown Var in each place of an expression, also where nothing is written.
const PLACES: [(&str, &str); 25] = [
    ("head", "h: 0 1 5 'a"), ("guard", "h: 2 'x 0 #1 1 5 'a 0 K"), ("second-guard", "h: 2 'x 0 #2 P 1 5 'a 0 K"),
    ("kvar-argument", "v: 'k2 #2 1 1 h: 0 0 'k2 #2 E 5 'a"), ("guard-argument", "v: 'k1 #1 1 h: 2 'x 0 #1 0 'k1 #1 5 'a 0 K"),
    ("body", "f: 'f #0 #0 0 1 #0 5 'a"), ("app-head", "h: 0 1 17 0 5 'a #1 E"), ("app-head-with-sort", "h: 0 1 17 1 0 5 'a #0"),
    ("app-argument", "h: 0 1 17 0 E #2 E 5 'a"), ("tested", "d: 'D #0 #1 'c #0 h: 0 1 19 'c 5 'a"), ("quantified", "h: 0 1 20 0 #1 'b 0 5 'a"),
    ("let-value", "h: 0 1 16 'b 5 'a E"), ("let-body", "h: 0 1 16 'b E 5 'a"), ("neg", "h: 0 1 7 5 'a"), ("not", "h: 0 1 8 5 'a"),
    ("operation", "h: 0 1 9 0 E 5 'a"), ("relation", "h: 0 1 10 1 5 'a E"), ("imp", "h: 0 1 11 E 5 'a"), ("iff", "h: 0 1 12 5 'a E"),
    ("and", "h: 0 1 13 #2 E 5 'a"), ("or", "h: 0 1 14 #1 5 'a"), ("ite", "h: 0 1 15 E E 5 'a"), ("under-true", "h: 2 'x 0 #1 1 5 'a 0 T"),
    ("without-heads", "h: 1 #2 0 K 2 'x 0 #1 1 5 'a C"), ("deep", "h: 1 #1 1 #2 C 2 'x 0 #0 1 #2 0 T 0 1 8 16 'b E 17 0 E #1 5 'a"),
];

/// IsCtors and KVar predicates: their names, and the numbers of a KVar's arguments. `k` has no sort.
const APPLIED: [(&str, u8, &str); 29] = [
    ("tester", 0, "d: 'D #0 #2 'c #0 'a #0 h: 0 1 19 'a E"), ("tester-nothing", 10, "h: 0 1 19 'a E"),
    ("tester-datatype", 10, "d: 'a #0 #1 'c #0 h: 0 1 19 'a E"), ("tester-field", 10, "d: 'D #0 #1 'c #1 'a 0 h: 0 1 19 'a E"),
    ("tester-constant", 10, "h: 0 1 19 'e E"), ("tester-function", 10, "f: 'a #0 #0 0 0 h: 0 1 19 'a E"), ("tester-kvar", 10, "h: 0 1 19 'k E"),
    ("tester-let", 10, "h: 0 1 16 'a E 19 'a E"), ("tester-binder", 10, "h: X 0 1 19 'x E"),
    ("tester-in-body", 0, "d: 'D #0 #1 'a #0 f: 'f #0 #0 0 1 #0 19 'a E"), ("kvar-nothing", 10, "h: 0 0 'a #0"),
    ("kvar-constant", 10, "h: 0 0 'e #0"), ("kvar-function", 10, "f: 'a #0 #0 1 0 h: 0 0 'a #0"),
    ("kvar-constructor", 10, "d: 'D #0 #1 'a #0 h: 2 'x 0 #1 0 'a #0 C"), ("kvar-binder", 10, "h: X 0 0 'x #0"),
    ("kvar-true", 10, "h: 0 0 'true #0"), ("kvar-nothing-with-argument", 10, "h: 0 0 'a #1 E"), ("count", 0, "v: 'a #2 0 0 h: 0 0 'a #2 E E"),
    ("count-less", 11, "v: 'a #2 0 0 h: 0 0 'a #1 E"), ("count-more", 11, "v: 'a #2 0 0 h: 0 0 'a #3 E E E"),
    ("count-none", 11, "v: 'a #2 0 0 h: 0 0 'a #0"), ("count-some", 11, "h: 0 0 'k #1 E"), ("count-guard", 11, "h: 2 'x 0 #2 P 0 'k #1 E C"),
    ("count-under-true", 11, "h: 2 'x 0 #1 0 'k #2 E E 0 T"), ("count-second-member", 11, "h: 1 #2 0 K 0 0 'k #1 E"),
    ("first-counts", 0, "v: 'a #1 0 'a #2 0 0 h: 0 0 'a #1 E"), ("second-does-not", 11, "v: 'a #1 0 'a #2 0 0 h: 0 0 'a #2 E E"),
    ("first-none", 0, "v: 'a #0 'b #1 0 'a #1 0 h: 1 #2 0 0 'a #0 0 0 'b #1 E"), ("second-some", 11, "v: 'a #0 'b #1 0 'a #1 0 h: 0 0 'a #1 E"),
];

/// Other faults beside those of 10 and 11, in front of them and behind; and the two together.
const ORDER: [(&str, u8, &str); 24] = [
    ("4-unknown", 4, "c: #1 10 h: 0 1 5 'a"), ("unknown-4", 4, "h: 1 #2 0 1 5 'a 0 1 5 'let"), ("5-unknown", 5, "d: 'D #0 #0 h: 0 1 5 'a"),
    ("12-unknown", 12, "k: 'c 4 0 h: 0 1 5 'a"), ("unknown-12", 12, "f: 'f #0 #0 0 1 #0 5 'a h: 2 'x 4 0 #0 C"),
    ("13-unknown", 13, "h: 0 1 13 #2 18 38 5 'a"), ("unknown-13", 13, "h: 0 1 13 #2 5 'a 18 38"), ("14-unknown", 14, "h: 0 1 13 #2 6 5 'a"),
    ("unknown-14", 14, "h: 0 1 13 #2 5 'a 6"), ("6-unknown", 6, "f: 'f #0 #1 0 0 1 #0 E h: 0 1 5 'a"),
    ("unknown-6", 6, "f: 'f #0 #0 0 1 #0 5 'a 'g #0 #1 0 0 1 #0 E"), ("7-unknown", 7, "h: X X 0 1 5 'a"),
    ("unknown-7", 7, "h: 1 #2 0 1 5 'a X X C"), ("15-unknown", 15, "h: 2 'e 0 #0 0 1 5 'a"), ("unknown-15", 15, "h: 1 #2 0 1 5 'a 2 'e 0 #0 C"),
    ("11-unknown", 10, "h: 1 #2 0 0 'k #1 E 0 1 5 'a"), ("unknown-11", 10, "h: 1 #2 0 1 5 'a 0 0 'k #1 E"), ("unknown-in-11", 10, "h: 0 0 'k #1 5 'a"),
    ("7-count", 7, "h: X X 0 0 'k #1 E"), ("count-7", 7, "h: 1 #2 0 0 'k #1 E X X C"), ("15-count", 15, "h: 2 'k 0 #0 0 0 'k #1 E"),
    ("count-15", 15, "h: 1 #2 0 0 'k #1 E 2 'k 0 #0 C"), ("count-14", 14, "h: 0 0 'k #1 6"), ("6-count", 6, "f: 'f #0 #1 0 0 1 #0 E h: 0 0 'k #1 E"),
];

/// A file with something in every section.
const FULL: &str = "c: \"ok d: 'D #1 #1 'c #1 'f 6 #0 k: 'e 11 'D #1 0 'p 1 f: 'f #0 #1 0 1 1 #1 'x 12 5 'x E v: 'k #0 'k1 #1 0 \
    h: 2 'x 0 #1 P 1 #2 0 0 'k1 #1 5 'x 0 1 E";

/// Words for so many ForAlls with names of their own, a guard each, and the words of a constraint inside.
pub fn nested(many: usize, inner: &str) -> String { (0..many).map(|i| format!("2 'x{i} 0 #1 1 5 'x{i} ")).collect::<String>() + inner }

/// Words for ForAlls whose binders have so many bytes together: functions of functions, each 12 bytes longer than what it gives.
fn binders(bytes: usize) -> String {
    let (many, rest) = (bytes / 2408, bytes % 2408);
    let one = |name: String, depth: usize| format!("2 '{name} {} 0 #0 ", "7 0 ".repeat(depth));
    let last = (rest - 8) / 12;
    (0..many).map(|i| one(format!("a{i}"), 200)).collect::<String>() + &one("b".repeat(rest - 6 - 12 * last), last)
}

/// Words for ForAlls whose guards have so many bytes together, a space before each: negations, each 6 bytes longer than what it negates. The
/// names in them are those of GUARDS.
fn guards(bytes: usize) -> String {
    let (many, rest) = (bytes / 1203, bytes % 1203);
    let one = |i: usize, name: &str, depth: usize| format!("2 'x{i} 0 #1 1 {} 5 '{name} ", "8 ".repeat(depth));
    let last = (rest - 3) / 6;
    (0..many).map(|i| one(i, "gg", 200)).collect::<String>() + &one(many, &"g".repeat(rest - 1 - 6 * last), last)
}

/// Constants with names of 2 to 7 bytes.
const GUARDS: &str = "k: 'gg 1 'ggg 1 'gggg 1 'ggggg 1 'gggggg 1 'ggggggg 1";

/// Words with a comment in front that makes the file so long.
fn padded(length: usize, rest: &str) -> String {
    let bytes = length - packed(rest).len() - 2;
    format!("c: \"{} {rest}", "c".repeat(bytes))
}

struct Limits(Vec<(String, Case)>);

impl Limits {
    fn file(&mut self, name: &str, due: Option<u8>, file: Vec<u8>) { self.0.push((name.to_string(), Case::new(file, due))) }
    fn words(&mut self, name: &str, due: u8, words: &str) { self.file(name, Some(due), packed(words)) }

    /// With the usual names declared.
    fn closed(&mut self, name: &str, due: u8, words: &str) { self.file(name, Some(due), closed(words)) }

    fn table(&mut self) {
        self.words("table-s", 0, S);
        TABLE.iter().for_each(|(name, _, words)| self.words(&format!("table-{name}"), 0, words));
        self.file("table-27-zeros", Some(1), vec![0; 27]);
        self.file("table-24-zeros-mark", Some(2), [&[0; 24], &b"HORN"[..]].concat());
        self.words("accident", 4, ACCIDENT);
        FAULTY.iter().for_each(|(name, due, words)| self.closed(&format!("faulty-{name}"), *due, words));
        CLASHING.iter().for_each(|(name, due, words)| self.closed(&format!("clash-{name}"), *due, words));
    }

    fn scopes(&mut self) {
        let named = DECLARATIONS.iter().chain(&BINDERS).chain(&APPLIED);
        named.for_each(|(name, due, words)| self.closed(&format!("scope-{name}"), *due, words));
        PLACES.iter().for_each(|(name, words)| self.closed(&format!("unknown-in-{name}"), 10, words));
        ORDER.iter().for_each(|(name, due, words)| self.closed(&format!("order-{name}"), *due, words));
        let long = "a".repeat(255);
        let (last, first) = (long[1..].to_string() + "b", "b".to_string() + &long[1..]);
        for (name, due, used) in [("same", 0, &long[..]), ("last-byte", 10, &last), ("first-byte", 10, &first), ("shorter", 10, &long[1..])] {
            self.closed(&format!("scope-255-{name}"), due, &format!("k: '{long} 0 h: 0 1 5 '{used}"));
            self.closed(&format!("scope-255-tester-{name}"), due, &format!("d: 'D #0 #1 '{long} #0 h: 0 1 19 '{used} E"));
            self.closed(&format!("scope-255-kvar-{name}"), due, &format!("v: '{long} #0 h: 0 0 '{used} #0"));
        }
    }

    /// Names bound far above: Lets and Quantifiers down to level 256, and ForAlls; a name bound by none of them; and one in the first operand of
    /// the innermost Let.
    fn deep_scopes(&mut self) {
        let lets: String = (0..255).map(|i| format!("16 'v{i} E ")).collect();
        let quantifiers: String = (0..255).map(|i| format!("20 {} #1 'v{i} 0 ", i % 2)).collect();
        for (name, due, used) in [("outermost", 0, "v0"), ("innermost", 0, "v254"), ("none", 10, "v255")] {
            self.closed(&format!("lets-255-{name}"), due, &format!("f: 'f #0 #0 0 1 #0 {lets} 5 '{used}"));
            self.closed(&format!("quantifiers-255-{name}"), due, &format!("f: 'f #0 #0 0 1 #0 {quantifiers} 5 '{used}"));
        }
        self.closed("lets-255-own", 10, &format!("f: 'f #0 #0 0 1 #0 {} 5 'v254 E", lets.trim_end().trim_end_matches('E')));
        for (name, due, used) in [("outermost", 0, "x0"), ("innermost", 0, "x252"), ("none", 10, "x253")] {
            self.words(&format!("binders-253-{name}"), due, &format!("h: {}", nested(253, &format!("0 1 5 '{used}"))));
        }
    }

    /// As many constants, fields or names of a Quantifier as a file has room for, and a Var named like the first, the last or none of them.
    fn many_names(&mut self) {
        let named = |many: usize| (0..many).map(|i| format!("'c{i:05} 0 ")).collect::<String>();
        let constants = |many: usize, used: &str| format!("k: {} h: 0 1 5 '{used}", named(many));
        let fields = |many: usize, used: &str| format!("d: 'D #0 #1 'c #{many} {} h: 0 1 5 '{used}", named(many));
        let quantifier = |many: usize, used: &str| format!("h: 0 1 20 0 #{many} {} 5 '{used}", named(many));
        let sizes = [1000, 8000, LONGEST_FILE];
        for (kind, sizes, rest) in [
            ("constants", &sizes[..2], &constants as &dyn Fn(usize, &str) -> String), ("fields", &sizes, &fields), ("quantified", &sizes, &quantifier),
        ] {
            for size in sizes {
                let many = (size - packed(&rest(0, "c00000")).len() - 2) / 8;
                for (name, due, number) in [("first", 0, 0), ("last", 0, many - 1), ("none", 10, many)] {
                    self.words(&format!("{kind}-in-{size}-{name}"), due, &padded(*size, &rest(many, &format!("c{number:05}"))));
                }
            }
        }
    }

    /// A KVar with as many sorts as there are arguments, one more or one less, in files of these sizes; and with 256 or none.
    fn many_arguments(&mut self) {
        for size in [1000, 8000, LONGEST_FILE] {
            let applied = |sorts: usize, args: usize| format!("v: 'k #{sorts} {} h: 0 0 'k #{args} {}", "0 ".repeat(sorts), "1 0 ".repeat(args));
            let many = (size - packed(&applied(0, 0)).len() - 6) / 3;
            for (name, due, args) in [("same", 0, many), ("less", 11, many - 1), ("more", 11, many + 1)] {
                self.words(&format!("arguments-in-{size}-{name}"), due, &padded(size, &applied(many, args)));
            }
        }
        self.closed("arguments-256-none", 11, &format!("v: 'a #256 {} h: 0 0 'a #0", "0 ".repeat(256)));
        self.closed("arguments-none-256", 11, &format!("h: 0 0 'k #256 {}", "1 0 ".repeat(256)));
    }

    fn levels(&mut self) {
        for (name, fits, before, left, middle, right) in NESTED {
            for (over, due) in [(0, 0), (1, 3)] {
                let [left, right] = [left, right].map(|side| format!("{side} ").repeat(fits + over));
                self.closed(&format!("levels-{}-{name}", DEEPEST + over), due, &format!("{before} {left} {middle} {right}"));
            }
        }
        for (name, fits, inner) in [("conj", 254, "C"), ("kvar", 254, "0 K"), ("expr", 253, "0 1 E")] {
            self.closed(&format!("binders-{fits}-{name}"), 0, &format!("h: {}", nested(fits, inner)));
            self.closed(&format!("binders-{}-{name}", fits + 1), 3, &format!("h: {}", nested(fits + 1, inner)));
        }
        self.words("binders-254-repeated", 7, &format!("h: {}", nested(253, "2 'x0 0 #0 C")));
        for (name, due, constant, last) in [
            ("declared-first", 15, "x0", "y"), ("declared-last", 15, "y", "y"), ("declared-none", 0, "x254", "y"), ("repeated", 7, "x0", "x253"),
        ] {
            self.words(&format!("binders-255-{name}"), due, &format!("k: '{constant} 0 h: {}", nested(254, &format!("2 '{last} 0 #0 C"))));
        }
        self.words("deep", 0, &format!("h: {}", nested(200, &format!("1 #10000 {}", "0 F ".repeat(10_000)))));
        let sized = |due: &str| format!("k: 'c {}{due}", "9 #1 ".repeat(DEEPEST));
        [("nothing", ""), ("wrong-code", "255"), ("width", "5 *4")].iter().for_each(|(name, due)| {
            self.words(&format!("levels-257-{name}"), 3, &sized(due));
        });
    }

    fn names(&mut self) {
        for (place, words) in NAMED {
            for (name, due, word) in [
                ("name-0", 2, "0".to_string()), ("name-1", 0, "'~".to_string()), ("name-255", 0, format!("'{}", "a".repeat(255))),
                ("name-reserved", 4, "'set-option".to_string()), ("name-digit", 4, "'0x".to_string()),
            ] {
                self.closed(&format!("{name}-{place}"), due, &words.replace('@', &word));
            }
        }
    }

    /// Names of 255 bytes that are declared, and those that differ in their last byte, in their first, or by being a byte shorter.
    fn long_names(&mut self) {
        let long = "a".repeat(255);
        for (place, words) in [
            ("constant", "k: @ 0"), ("function", "f: @ #0 #0 0 0"), ("constructor", "d: 'D #0 #1 @ #0"), ("field", "d: 'D #0 #1 'c #1 @ 0"),
            ("kvar", "v: @ #0"),
        ] {
            for (name, due, binder) in [
                ("same", 15, long.clone()), ("last-byte", 0, long[1..].to_string() + "b"), ("first-byte", 0, "b".to_string() + &long[1..]),
                ("shorter", 0, long[1..].to_string()),
            ] {
                let words = words.replace('@', &format!("'{long}"));
                self.closed(&format!("clash-255-{place}-{name}"), due, &format!("{words} h: 2 '{binder} 0 #0 0 K"));
            }
        }
    }

    fn numbers(&mut self) {
        let numerals = [0, 9, 10, (1 << 64) - 1, 1 << 64, 10u128.pow(19) - 1, 10u128.pow(19), 10u128.pow(20), 10u128.pow(38), u128::MAX];
        for (i, numeral) in numerals.iter().enumerate() {
            let bytes: String = numeral.to_le_bytes().iter().map(|byte| format!("{byte} ")).collect();
            let name = match i { 0 => "0".to_string(), 9 => "max".to_string(), _ => numeral.to_string() };
            self.words(&format!("numeral-{name}"), 0, &format!("h: 1 #2 0 1 0 {bytes} 0 1 4 {bytes} #65535 #65535"));
        }
        for vars in [0, 1, 2, 3, 9999, 10_000, 65_534, 65_535] {
            self.words(&format!("parameters-{vars}"), 0, &format!("d: 'N #{vars} #1 'c #1 'f 6 #0"));
        }
        COUNTED.iter().for_each(|(name, words)| self.words(&format!("count-65535-{name}"), 2, words));
        self.words("count-59961-sorts", 0, &format!("v: 'k #59961 {}", "0 ".repeat(59_961)));
        self.words("count-19989-constraints", 0, &format!("h: 1 #19989 {}", "C ".repeat(19_989)));
        self.words("count-14000-true-heads", 0, &format!("h: 1 #14000 {}", "0 T ".repeat(14_000)));
        self.words("count-3000-constants", 0, &format!("k: {}", "'c 0 ".repeat(3_000)));
    }

    fn strings(&mut self) {
        QUOTED.iter().for_each(|(name, due, text)| self.words(&format!("string-{name}"), *due, &format!("h: 0 1 3 {text}")));
        for (many, due) in [(59_967, 0), (59_968, 1)] {
            self.words(&format!("string-{many}-quotes"), due, &format!("h: 0 1 3 \"{}", "\"".repeat(many)));
        }
    }

    fn sizes(&mut self) {
        for (name, rest) in [("comment", "h: C"), ("s", S), ("full", FULL)] {
            self.words(&format!("size-60000-{name}"), 0, &padded(LONGEST_FILE, rest));
            self.words(&format!("size-60001-{name}"), 1, &padded(LONGEST_FILE + 1, rest));
        }
        for size in [0, 1, 4, TRAILER - 1] {
            self.file(&format!("size-{size}"), Some(1), packed(S)[packed(S).len() - size..].to_vec());
        }
    }

    /// As many names as a file has room for, fields of a constructor, behind the constructor and its datatype, which are looked up.
    fn tables(&mut self) {
        for size in [1000, 1001, 8000, 8001, LONGEST_FILE] {
            let rest = |many: usize| format!("d: 'D #0 #1 'c #{many} {} v: 'k #1 11 'D #0 h: 0 1 17 1 11 'D #0 5 'c #0", "'x 0 ".repeat(many));
            let many = (size - packed(&rest(0)).len() - 2) / 3;
            self.words(&format!("names-in-{size}"), 0, &padded(size, &rest(many)));
        }
    }

    /// As many constants as a file has room for, and a ForAll named like the first, the last or none of them; and in the longest file as many
    /// ForAlls as constants, and behind them one named like the last constant or none.
    fn clashes(&mut self) {
        let constants = |many: usize| (0..many).map(|i| format!("'c{i:05} 0 ")).collect::<String>();
        for size in [1000, 1001, 8000, 8001, LONGEST_FILE] {
            let rest = |many: usize, binder: &str| format!("k: {} v: 'k #0 h: 2 '{binder} 0 #0 0 K", constants(many));
            let many = (size - packed(&rest(0, "c00000")).len() - 2) / 8;
            for (name, due, number) in [("first", 15, 0), ("last", 15, many - 1), ("none", 0, many)] {
                self.words(&format!("clash-in-{size}-{name}"), due, &padded(size, &rest(many, &format!("c{number:05}"))));
            }
        }
        let rest = |many: usize, binder: &str| {
            format!("k: {} v: 'k #0 h: 1 #{} {} 2 '{binder} 0 #0 0 K", constants(many), many + 1, "2 'x 0 #0 C ".repeat(many))
        };
        let many = (LONGEST_FILE - packed(&rest(0, "c00000")).len() - 2) / 17;
        for (name, due, number) in [("last", 15, many - 1), ("none", 0, many)] {
            self.words(&format!("clash-behind-{many}-{name}"), due, &padded(LONGEST_FILE, &rest(many, &format!("c{number:05}"))));
        }
    }

    /// Paths whose binders or guards have so many bytes as text, in a file of so many bytes: heads and a ForAll under them, a shorter path behind.
    /// And ForAlls and heads in turns under paths that are far longer.
    fn paths(&mut self) {
        for (size, bytes) in [(1000, 2048), (1000, 2049), (1001, 2049), (8000, 16_384), (8000, 16_385)] {
            for (kind, path) in [("binders", binders(bytes)), ("guards", guards(bytes))] {
                let words = format!("{DECLARED} {GUARDS} h: 1 #2 {path} 1 #3 0 K 0 1 E 2 'y 0 #1 P 0 K 2 'z 0 #2 T P 1 #2 0 1 E 0 K");
                self.words(&format!("path-of-{bytes}-{kind}-in-{size}"), 0, &padded(size, &words));
            }
        }
        for (kind, path) in [("binders", binders(40_000)), ("guards", guards(40_000))] {
            let members = "2 'y 0 #2 P P 0 K 0 K 2 'y 0 #2 T T 1 #2 0 K 0 1 E 0 1 E 2 'y 0 #1 P 2 'z 0 #1 P 1 #2 0 K 0 1 E";
            let words = format!("{DECLARED} {GUARDS} h: 1 #2 {path} 1 #5 {members} 2 'z 0 #2 T P 1 #2 0 1 E 0 K");
            self.words(&format!("members-under-40000-{kind}"), 0, &words);
        }
    }

    fn offsets(&mut self) {
        let sections = sections(FULL, USUAL).expect("words");
        let (body, right) = (sections.concat(), offsets(&sections));
        self.file("offsets", Some(0), joined(&sections));
        let with = |i: usize, offset: usize| sealed(&body, std::array::from_fn(|j| if i == j { offset } else { right[j] }));
        for i in 0..6 {
            for (name, moved) in [("less", right[i].wrapping_sub(1)), ("more", right[i] + 1), ("far", right[i] + (1 << 24))] {
                let due = if i == 0 || name == "far" { Some(1) } else { None };
                self.file(&format!("offset-{i}-{name}"), due, with(i, moved));
            }
        }
        self.file("offset-5-end", Some(2), with(5, body.len()));
        self.file("offset-5-behind-end", Some(1), with(5, body.len() + 1));
    }
}

/// The files, each with a name of its own.
pub fn limits() -> Vec<(String, Case)> {
    let mut limits = Limits(Vec::new());
    limits.table();
    limits.scopes();
    limits.deep_scopes();
    limits.many_names();
    limits.many_arguments();
    limits.levels();
    limits.names();
    limits.long_names();
    limits.numbers();
    limits.strings();
    limits.sizes();
    limits.tables();
    limits.clashes();
    limits.paths();
    limits.offsets();
    limits.0
}
