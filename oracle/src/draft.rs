//! Valid task files by chance: every form of every kind of piece, at every level, with names that are known where they stand. A draft keeps
//! the places that a fault can be put at.
use crate::chance::Chance;
use crate::task::{is_symbol, DEEPEST, LONGEST_FILE, MAP_DEFAULT, SET_EMPTY, SIGNS, SIGN_EXTEND, THEORY, TRAILER, ZERO_EXTEND};
use crate::words::joined;
use std::{iter, ops::Range};

/// Kinds of pieces and their forms: `c` `d` `k` `f` `v` items of the sections, `K` a constructor, `M` a field, `B` a Quantifier's name and
/// its sort, `S` a sort, `E` an expression, `P` a predicate, `C` a constraint. A kind in a form is a piece one level deeper, with `*` a
/// counted list of them. Numbers are bytes; `%5` is a byte below 5, `!1` a flag; `Q` `U` `V` `v` are numbers of 16, 4, 2 and 2 bytes, the
/// last a small one; `T` and `t` are a string and a comment; `N` `D` `A` names: of a Var, of some datatype, of a ForAll; DECLARED and HARMLESS
/// have other letters of names; `F` is a theory function; `i` and `a` are a counted list of inputs and as many argument names. `W` is a
/// constructor's name, `H` a KVar's and as many arguments as it has sorts. From `l` on a Let's name is known. Four letters
/// are pieces that stand only there: `w` a width, `h` the head of an App with an output sort, `n` such a head that is a name, `y` a Boolean
/// that is true.
const FORMS: [(char, &[&str]); 12] = [
    ('c', &["t"]),
    ('d', &["O v K*"]),
    ('k', &["X S"]),
    ('f', &["Y V S* S !0", "Y V i S !1 a E"]),
    ('v', &["Z S*"]),
    ('K', &["R M*"]),
    ('M', &["I S"]),
    ('B', &["J S"]),
    ('S', &["0", "1", "2", "3", "4 w", "6 V", "7 S S", "8 V S", "9 S*", "10 S*", "11 D S*", "11 D S*"]),
    ('E', &["0 Q", "1 %2", "2 U", "3 T", "4 Q U", "5 N", "5 N", "5 N", "7 E", "8 E", "9 %5 E E", "10 %6 E E", "11 E E", "12 E E", "13 E*",
        "14 E*", "15 E E E", "16 L E l E", "17 !0 E E*", "17 !1 S h E*", "17 !1 S n E*", "18 F", "19 W E", "20 %2 B* E"]),
    ('P', &["0 H", "1 E", "1 y"]),
    ('C', &["0 P", "1 C*", "1 C*", "2 A S P* C", "2 A S P* C"]),
];

/// The letters of names that no ForAll may have: of a constructor, a field, a constant, a function, a KVar.
pub const DECLARED: [char; 5] = ['R', 'I', 'X', 'Y', 'Z'];

/// The letters of names that stand at declarations or binders, and that a ForAll may have: of a datatype, an argument, a Let, a Quantifier.
pub const HARMLESS: [char; 4] = ['O', 'G', 'L', 'J'];

/// Names beside those made by chance: words of the script, in both editions, and neighbours of reserved words.
const NAMES: [&str; 28] = [
    "x", "y", "k0", "f", "List", "nil", "cons", "true", "false", "Int", "T0", "and", "not", "=>", "<=", "-", "lets", "Let", "asserts",
    "check-sat-assumin", "parr", "__", "~!@$%^&*_-+=<>.?/", "HORN", "union", "set.union", "emptyset", "set.empty",
];

/// An item or a predicate mostly has up to so many pieces.
const FEW: usize = 16;

/// Of the names that are known, half are taken from so many innermost ones.
const INNERMOST: usize = 4;

/// What stands at a place. A `Head` is that of an App with an output sort. A `Name` has its letter. A `Binder` is a ForAll's name, with the
/// number of the place of the name of one around it. `Args` are a function's argument names, `Applied` a KVar's arguments.
#[derive(Clone, PartialEq)]
pub enum Spot { Item, Piece(char), Head, Width, Name(char), Binder(Option<usize>), Choice(u8), String, Comment, Ctors, Args, Applied }

/// What an expression is in the piece around it; a predicate that is an expression hands on its own.
#[derive(Clone, Copy, Default, PartialEq)]
pub enum Role { #[default] Other, Head, LetValue, Guard, BodyHead, KVarArgument, FunctionBody, Tested, Quantified }

/// `scope` is the number of what is known there, 0 if nothing is.
#[derive(Clone)]
pub struct Place { pub spot: Spot, pub section: usize, pub span: Range<usize>, pub level: usize, pub role: Role, pub scope: usize }

/// `scopes` has in place n - 1 what the number n of a scope stands for: the number of the place of the name that became known last, and the
/// number of the scope before it.
pub struct Draft { pub sections: Vec<Vec<u8>>, pub places: Vec<Place>, scopes: Vec<(usize, usize)> }

/// How a draft is made: about how many pieces it has, how many items a section has at most, the level that one of its pieces is at (0 if it
/// may be any), and whether the way there is one form again and again. With level 257 the file gets 3, else it is valid.
#[derive(Clone, Copy)]
pub struct Plan { pub pieces: usize, pub items: usize, pub target: usize, pub chain: bool }

impl Place {
    pub fn is_before(&self, other: &Place) -> bool { (self.section, self.span.end) <= (other.section, other.span.start) }

    /// Whether it ends where another starts.
    pub fn ends_at(&self, other: &Place) -> bool { (self.section, self.span.end) == (other.section, other.span.start) }
}

impl Draft {
    /// Drafts too long for a file are made anew.
    pub fn new(chance: &mut Chance, plan: Plan) -> Draft {
        loop {
            let draft = Maker::task(chance, plan);
            if draft.sections.iter().map(Vec::len).sum::<usize>() + TRAILER <= LONGEST_FILE {
                return draft;
            }
        }
    }

    pub fn file(&self) -> Vec<u8> { joined(&self.sections) }

    /// What stands at a place; at that of a name its length and the name.
    pub fn at(&self, place: &Place) -> &[u8] { &self.sections[place.section][place.span.clone()] }

    /// The numbers of the places of the names that are known in a scope, the innermost first.
    fn known(&self, scope: usize) -> impl Iterator<Item = usize> + '_ {
        let entry = |scope: usize| scope.checked_sub(1).map(|at| self.scopes[at]);
        iter::successors(entry(scope), move |(_, outer)| entry(*outer)).map(|(number, _)| number)
    }

    /// The names of the Vars in a piece that mean something outside it.
    pub fn free(&self, piece: &Place) -> Vec<&[u8]> {
        let within = |place: &&Place| place.section == piece.section && piece.span.start <= place.span.start && place.span.end <= piece.span.end;
        let vars = self.places.iter().filter(within).filter(|place| matches!(place.spot, Spot::Name('N' | 'n')));
        let is_free = |var: &&Place| self.meant(var, self.at(var)).is_none_or(|number| !within(&&self.places[number]));
        vars.filter(is_free).map(|var| self.at(var)).collect()
    }

    /// The number of the place of the innermost such name that is known at a place. The name stands behind its length.
    pub fn meant(&self, place: &Place, name: &[u8]) -> Option<usize> {
        self.known(place.scope).find(|number| self.at(&self.places[*number]) == name)
    }
}

/// `section` is the one that is being made, `left` the number of pieces still to be made. `names` are those in use, `ctors` those of
/// constructors, `declared` and `harmless` those with such a letter; `datatypes` are those of the whole file, `own` is that of the item being
/// made; `around` are the numbers of the places of the names of the ForAlls around. `inputs` is the number of a function's, `chain` a kind and
/// the form that is to stand around itself. `scope` is what is known, `role` that of the next expression; `lets` and `function` are numbers of
/// places of names that become known later. `kvars` are those that are declared, each by its first declaration, with their numbers of sorts.
struct Maker<'c> {
    chance: &'c mut Chance, draft: Draft, section: usize, left: usize, names: Vec<String>, ctors: Vec<String>, declared: Vec<String>,
    harmless: Vec<String>, datatypes: Vec<String>, own: String, around: Vec<usize>, inputs: usize, chain: Option<(char, &'static str)>,
    scope: usize, role: Role, lets: Vec<usize>, function: usize, kvars: Vec<(String, usize)>,
}

/// A word of a form that a piece goes on by: the form, the place in it, and the word.
type Way = (&'static str, usize, &'static str);

fn forms(kind: char) -> &'static [&'static str] { FORMS.iter().find(|(letter, _)| *letter == kind).expect("a kind").1 }

/// The words of all forms of a kind.
fn ways(kind: char) -> impl Iterator<Item = Way> {
    forms(kind).iter().flat_map(|form| form.split(' ').enumerate().map(move |(i, word)| (*form, i, word)))
}

/// The kind of the pieces that a word makes below, if it makes any.
fn kind_below(word: &str) -> Option<char> {
    match word.chars().next()? {
        'K' | 'M' | 'B' | 'w' | 'i' => Some('S'),
        'h' | 'n' | 'y' | 'H' => Some('E'),
        kind @ ('S' | 'E' | 'P' | 'C') => Some(kind),
        _ => None,
    }
}

/// Whether a word makes pieces even if none is wanted; for `H` see `possible`.
fn needed(word: &str) -> bool { kind_below(word).is_some() && !word.ends_with('*') && !["i", "H"].contains(&word) }

/// The role of an expression in a form of this kind, by its word and the words before it. `own` is that of the piece with the form.
fn role(kind: char, form: &str, at: usize, own: Role) -> Role {
    match (kind, form.split(' ').nth(at).expect("a word"), form) {
        ('f', "E", _) => Role::FunctionBody,
        ('C', "P", _) => Role::BodyHead,
        ('C', "P*", _) => Role::Guard,
        ('P', "H", _) => Role::KVarArgument,
        ('P', ..) => own,
        ('E', "E", "16 L E l E") if at == 2 => Role::LetValue,
        ('E', "E", "17 !0 E E*") | ('E', "h" | "n", _) => Role::Head,
        ('E', "E", "19 W E") => Role::Tested,
        ('E', "E", "20 %2 B* E") => Role::Quantified,
        _ => Role::Other,
    }
}

/// Whether a word of a form at `level` can make a piece at the level `target`: the pieces that stand only there have none below them.
fn carries(word: &str, level: usize, target: usize) -> bool {
    kind_below(word).is_some() && (!["w", "n", "y"].contains(&word) || level + 1 == target)
}

/// A kind by chance and one of its forms that can stand around itself.
fn chain(chance: &mut Chance) -> (char, &'static str) {
    let around_itself = |kind: char| ways(kind).filter(move |way| kind_below(way.2) == Some(kind) && carries(way.2, 1, DEEPEST));
    let chains: Vec<_> = ['S', 'E', 'C'].iter().flat_map(|kind| around_itself(*kind).map(|way| (*kind, way.0))).collect();
    chains[chance.below(chains.len())]
}

impl<'c> Maker<'c> {
    fn task(chance: &'c mut Chance, plan: Plan) -> Draft {
        let chain = if plan.chain { Some(chain(chance)) } else { None };
        let mut maker = Maker {
            chance, chain, draft: Draft { sections: vec![Vec::new(); 6], places: Vec::new(), scopes: Vec::new() }, section: 0, left: plan.pieces,
            inputs: 0, names: Vec::new(), ctors: Vec::new(), declared: Vec::new(), harmless: Vec::new(), datatypes: Vec::new(),
            own: String::new(), around: Vec::new(), scope: 0, role: Role::Other, lets: Vec::new(), function: 0, kvars: Vec::new(),
        };
        // The section with the target in it
        let deep = [1, 2, 3, 3, 4, 5, 5, 5][maker.chance.below(8)];
        for (section, kind) in "cdkfv".chars().enumerate() {
            maker.section = section;
            let due = section == deep && plan.target > 0 || kind == 'v' && plan.items > 0 && maker.chance.below(4) > 0;
            let many = maker.chance.below(plan.items + 1).max(due as usize);
            if kind == 'd' {
                maker.datatypes = (0..many).map(|_| maker.name()).collect();
            }
            for i in 0..many {
                maker.own = maker.datatypes.get(i).cloned().unwrap_or_default();
                maker.piece(kind, 0, if (section, i) == (deep, 0) { plan.target } else { 0 });
            }
        }
        maker.section = 5;
        maker.left = maker.left.max(plan.pieces / 2);
        maker.piece('C', 1, if deep == 5 { plan.target } else { 0 });
        maker.mark(Spot::Item, 0, 0);
        maker.draft
    }

    fn here(&self) -> usize { self.draft.sections[self.section].len() }
    fn put(&mut self, bytes: &[u8]) { self.draft.sections[self.section].extend(bytes) }

    fn mark(&mut self, spot: Spot, start: usize, level: usize) {
        let place = Place { spot, section: self.section, span: start..self.here(), level, role: self.role, scope: self.scope };
        self.draft.places.push(place);
    }

    /// From here on the name at the place of this number is known.
    fn learn(&mut self, number: usize) {
        self.draft.scopes.push((number, self.scope));
        self.scope = self.draft.scopes.len();
    }

    /// Whether a KVar with so many sorts can stand at a level: the arguments go on to the target, and at the last level there are none.
    fn stands(level: usize, target: usize, sorts: usize) -> bool {
        if target > level { sorts > 0 } else { level < DEEPEST || sorts == 0 }
    }

    /// Whether what a word makes can be had in a piece at this level.
    fn possible(&self, word: &str, level: usize, target: usize) -> bool {
        match word {
            "N" | "n" => self.scope > 0,
            "W" => !self.ctors.is_empty(),
            "H" => self.kvars.iter().any(|(_, sorts)| Self::stands(level, target, *sorts)),
            "P" | "P*" => level + 1 != DEEPEST || target > DEEPEST || self.kvars.iter().any(|(_, sorts)| *sorts == 0),
            _ => true,
        }
    }

    /// Whether a form of a piece at this level can be had, the way to the target apart.
    fn has(&self, form: &str, level: usize, way: Option<usize>) -> bool {
        form.split(' ').enumerate().all(|(i, word)| Some(i) == way || word == "P*" || self.possible(word, level, 0))
    }

    /// A form for a piece of this kind, and the word in it that goes on to the target if that is deeper.
    fn form(&mut self, kind: char, level: usize, target: usize) -> (&'static str, Option<usize>) {
        let plain = self.chance.plain_heads;
        if target > level {
            // A plain head has nothing below it
            let closed = |way: &Way| plain && level + 1 < target && role(kind, way.0, way.1, Role::Other) == Role::Head;
            let leads = |way: &Way| {
                carries(way.2, level, target) && self.possible(way.2, level, target) && self.has(way.0, level, Some(way.1)) && !closed(way)
            };
            let mut ways: Vec<Way> = ways(kind).filter(leads).collect();
            if let Some((chained, form)) = self.chain {
                // Along the chain's form, else towards its kind, else to a predicate
                let rank = |way: &Way| match (kind_below(way.2), kind == chained) {
                    (Some(below), own) if below == chained && (!own || way.0 == form) => 0,
                    (below, _) => 2 - (below == Some('P')) as usize,
                };
                let best = ways.iter().map(rank).min();
                ways.retain(|way| Some(rank(way)) == best);
            }
            let (form, i, _) = ways[self.chance.below(ways.len())];
            return (form, Some(i));
        }
        // Where no piece is left to make, none of the same kind is made below; at the last level none at all
        let any = level < DEEPEST && self.left > 0;
        let ends = |form: &str| form.split(' ').all(|word| !needed(word) || level < DEEPEST && kind_below(word) != Some(kind));
        let fits = |form: &str| !plain || (kind, self.role) != ('E', Role::Head) || ["5 N", "18 F"].contains(&form);
        let forms: Vec<_> = forms(kind).iter().filter(|form| self.has(form, level, None) && (any || ends(form)) && fits(form)).collect();
        (forms[self.chance.below(forms.len())], None)
    }

    /// A piece of this kind at this level, with one at the level `target` in it. At level 257 stands a byte or nothing.
    fn piece(&mut self, kind: char, level: usize, target: usize) {
        let start = self.here();
        if level > DEEPEST {
            let (any, which) = (self.chance.below(256) as u8, self.chance.below(3));
            return self.put([&[][..], &[0], &[any]][which]);
        }
        // An item or a predicate takes a few of the pieces left, or half of them, so that there are some for the others
        let few = if self.chance.below(8) > 0 { 1 + self.chance.below(FEW) } else { self.left / 2 };
        let others = if "cdkfvP".contains(kind) { self.left.saturating_sub(few) } else { 0 };
        self.left = (self.left - others).saturating_sub(1);
        let ((form, carrier), scope, own) = (self.form(kind, level, target), self.scope, self.role);
        for (i, word) in form.split(' ').enumerate() {
            self.role = role(kind, form, i, own);
            self.word(word, level, if carrier == Some(i) { target } else { 0 });
        }
        self.left += others;
        self.role = own;
        match kind {
            'E' | 'C' => self.scope = scope,
            'f' => {
                self.scope = scope;
                self.learn(self.function);
            }
            'v' => self.declare(start),
            _ => {}
        }
        match kind {
            'S' | 'E' | 'P' | 'C' => self.mark(Spot::Piece(kind), start, level),
            'B' | 'K' | 'M' => {}
            _ => self.mark(Spot::Item, start, level),
        }
        if form.contains('A') {
            self.around.pop();
        }
    }

    fn word(&mut self, word: &'static str, level: usize, target: usize) {
        let start = self.here();
        match word.as_bytes()[0] {
            b'0'..=b'9' => self.put(&[word.parse().expect("a byte")]),
            b'%' => self.choice(word[1..].parse().expect("a bound")),
            b'!' => {
                self.put(&[word[1..].parse().expect("a flag")]);
                self.mark(Spot::Choice(2), start, level);
            }
            b'Q' => self.number(16),
            b'U' => self.number(4),
            b'V' => self.number(2),
            b'v' => {
                let few = self.chance.below(4) as u8;
                self.put(&[few, 0]);
            }
            b'T' => self.text(Spot::String),
            b't' => self.text(Spot::Comment),
            letter @ (b'N' | b'D' | b'A') => self.named(letter as char),
            letter if DECLARED.contains(&(letter as char)) || HARMLESS.contains(&(letter as char)) => self.named(letter as char),
            b'F' => self.function(),
            b'a' => self.arguments(),
            b'W' => self.named('W'),
            b'H' => self.kvar(level, target),
            b'l' => {
                let number = self.lets.pop().expect("a Let's name");
                self.learn(number);
            }
            b'w' | b'h' | b'n' | b'y' => self.only_there(word, level + 1, target),
            b'i' => self.inputs = self.list('S', level, target),
            kind if word.ends_with('*') => drop(self.list(kind as char, level, target)),
            kind => self.piece(kind as char, level + 1, target),
        }
    }

    /// A counted list; one of its members goes on to the target. Constructors, and names with sorts, are no level of their own.
    fn list(&mut self, kind: char, level: usize, target: usize) -> usize {
        let (start, most) = (self.here(), if self.chance.below(16) == 0 { 12 } else { 4 });
        let (least, more) = ((kind == 'K' || target > level) as usize, 2 * (kind == 'C') as usize);
        let any = level < DEEPEST && self.left > 0 && (kind != 'P' || self.possible("P*", level, target));
        let many = if any { more + self.chance.below(most) } else { 0 }.max(least);
        let carrier = self.chance.below(many.max(1));
        self.put(&(many as u16).to_le_bytes());
        let role = self.role;
        for i in 0..many {
            self.role = role;
            self.piece(kind, level + !"KMB".contains(kind) as usize, if i == carrier { target } else { 0 });
        }
        if kind == 'K' {
            self.mark(Spot::Ctors, start, level);
        }
        many
    }

    /// One of the four pieces that stand only in their form. A head may be any expression.
    fn only_there(&mut self, word: &str, level: usize, target: usize) {
        let start = self.here();
        if level > DEEPEST {
            return self.piece('E', level, target);
        }
        match word {
            "h" if target > level || self.chance.below(2) == 0 => {
                self.piece('E', level, target);
                self.draft.places.pop();
            }
            "h" => {
                let function = [SET_EMPTY, MAP_DEFAULT][self.chance.below(2)] as u8;
                self.put(&[18, function]);
            }
            "n" => {
                self.put(&[5]);
                self.named('n');
            }
            "w" => {
                self.put(&[5]);
                self.number(4);
            }
            _ => self.put(&[1, 1]),
        }
        self.mark(match word { "w" => Spot::Width, "y" => Spot::Piece('E'), _ => Spot::Head }, start, level);
    }

    fn choice(&mut self, bound: usize) {
        let (start, byte) = (self.here(), self.chance.below(bound) as u8);
        self.put(&[byte]);
        self.mark(Spot::Choice(bound as u8), start, 0);
    }

    /// A theory function other than the two that need a sort.
    fn function(&mut self) {
        let (start, mut code) = (self.here(), SET_EMPTY);
        while [SET_EMPTY, MAP_DEFAULT].contains(&code) {
            code = self.chance.below(THEORY.len());
        }
        self.put(&[code as u8]);
        self.mark(Spot::Choice(THEORY.len() as u8), start, 0);
        if [ZERO_EXTEND, SIGN_EXTEND].contains(&code) {
            self.number(1);
        }
    }

    /// A number of so many bytes: next to a power of 10, or of any length.
    fn number(&mut self, bytes: usize) {
        let power = 10u128.pow(self.chance.below(39) as u32) - self.chance.below(2) as u128;
        let used = self.chance.below(bytes + 1);
        let any = (0..used).fold(0, |high, _| high << 8 | self.chance.below(256) as u128);
        let number = if self.chance.below(4) == 0 { power } else { any };
        self.put(&number.to_le_bytes()[..bytes]);
    }

    /// A comment or a string.
    fn text(&mut self, spot: Spot) {
        let (start, most) = (self.here(), [1, 8, 24, 24, 24, 24, 24, 600][self.chance.below(8)]);
        let text = text(self.chance, most);
        self.put(&text);
        self.mark(spot, start, 0);
    }

    /// A name for any purpose: one in use, one of the list, or a new one.
    fn name(&mut self) -> String {
        let name = match self.chance.below(8) {
            0..=2 if !self.names.is_empty() => return self.names[self.chance.below(self.names.len())].clone(),
            0..=4 => NAMES[self.chance.below(NAMES.len())].to_string(),
            _ => symbol(self.chance),
        };
        self.names.push(name.clone());
        name
    }

    /// A name that is known here.
    fn known(&mut self) -> String {
        let known: Vec<usize> = self.draft.known(self.scope).collect();
        let among = if self.chance.below(2) == 0 { known.len() } else { known.len().min(INNERMOST) };
        let place = &self.draft.places[known[self.chance.below(among)]];
        String::from_utf8(self.draft.at(place)[1..].to_vec()).expect("ASCII")
    }

    /// A name by its letter in the forms; `n` is that of a constructor as a head.
    fn named(&mut self, letter: char) {
        let start = self.here();
        let name = match letter {
            'N' => self.known(),
            'n' if self.ctors.is_empty() || self.chance.below(4) == 0 => self.known(),
            'n' | 'W' => self.ctors[self.chance.below(self.ctors.len())].clone(),
            'O' => self.own.clone(),
            'D' if !self.datatypes.is_empty() && self.chance.below(3) > 0 => self.datatypes[self.chance.below(self.datatypes.len())].clone(),
            'A' => self.binder(),
            _ => self.name(),
        };
        self.put(&named(name.as_bytes()));
        let spot = if letter == 'A' { Spot::Binder(one_of(self.chance, &self.around)) } else { Spot::Name(letter) };
        self.mark(spot, start, 0);
        self.note(letter, name);
    }

    /// Keeps the name made last: where it is known, and what may be named so.
    fn note(&mut self, letter: char, name: String) {
        let number = self.draft.places.len() - 1;
        match letter {
            'R' | 'I' | 'X' | 'G' | 'J' | 'A' => self.learn(number),
            'L' => self.lets.push(number),
            'Y' => self.function = number,
            _ => {}
        }
        match letter {
            'R' => self.ctors.push(name.clone()),
            'A' => self.around.push(number),
            _ => {}
        }
        if DECLARED.contains(&letter) {
            self.declared.push(name);
        } else if HARMLESS.contains(&letter) {
            self.harmless.push(name);
        }
    }

    /// A KVar from this place on is declared, with its number of sorts; of two with one name the first counts.
    fn declare(&mut self, start: usize) {
        let item = &self.draft.sections[self.section][start..];
        let (name, rest) = item[1..].split_at(item[0] as usize);
        let (name, sorts) = (String::from_utf8(name.to_vec()).expect("ASCII"), rest[0] as usize + 256 * rest[1] as usize);
        if self.kvars.iter().all(|(other, _)| *other != name) {
            self.kvars.push((name, sorts));
        }
    }

    /// A declared KVar's name, and as many arguments as it has sorts; one of them goes on to the target.
    fn kvar(&mut self, level: usize, target: usize) {
        let fitting: Vec<_> = self.kvars.iter().filter(|(_, sorts)| Self::stands(level, target, *sorts)).cloned().collect();
        let (name, sorts) = &fitting[self.chance.below(fitting.len())];
        let (start, carrier, role) = (self.here(), self.chance.below((*sorts).max(1)), self.role);
        self.put(&named(name.as_bytes()));
        self.mark(Spot::Name('H'), start, 0);
        let start = self.here();
        self.put(&(*sorts as u16).to_le_bytes());
        for i in 0..*sorts {
            self.role = role;
            self.piece('E', level + 1, if i == carrier { target } else { 0 });
        }
        self.mark(Spot::Applied, start, 0);
    }

    /// A ForAll's name: any or a harmless one, but none that is declared and none of those around.
    fn binder(&mut self) -> String {
        let name = self.name();
        let mut name = if self.chance.below(4) == 0 { one_of(self.chance, &self.harmless).unwrap_or(name) } else { name };
        while self.declared.contains(&name) || self.is_around(&name) {
            name = symbol(self.chance);
        }
        name
    }

    fn is_around(&self, name: &str) -> bool {
        let coded = named(name.as_bytes());
        self.around.iter().any(|number| self.draft.at(&self.draft.places[*number]) == coded)
    }

    fn arguments(&mut self) {
        let start = self.here();
        self.put(&(self.inputs as u16).to_le_bytes());
        (0..self.inputs).for_each(|_| self.named('G'));
        self.mark(Spot::Args, start, 0);
    }
}

fn one_of<T: Clone>(chance: &mut Chance, items: &[T]) -> Option<T> {
    if items.is_empty() { None } else { Some(items[chance.below(items.len())].clone()) }
}

/// A new symbol: mostly a short one, now and then of 1 or 255 bytes or of any length.
pub fn symbol(chance: &mut Chance) -> String {
    let most = [6, 6, 6, 6, 6, 24, 255][chance.below(7)];
    let length = if chance.below(16) == 0 { [1, 255][chance.below(2)] } else { 1 + chance.below(most) };
    let signs: Vec<u8> = (b'a'..=b'z').chain(b'A'..=b'Z').chain(b'0'..=b'9').chain(*SIGNS).collect();
    loop {
        let name: Vec<u8> = (0..length).map(|_| signs[chance.below(signs.len())]).collect();
        if is_symbol(&name) {
            return String::from_utf8(name).expect("ASCII");
        }
    }
}

/// A name behind its length.
pub fn named(name: &[u8]) -> Vec<u8> { [&[name.len() as u8], name].concat() }

/// A text of less than so many bytes behind its length. In one of four about half of the bytes are quotation marks.
pub fn text(chance: &mut Chance, most: usize) -> Vec<u8> {
    let (length, quoting) = (chance.below(most), chance.below(4) == 0);
    let mut byte = || if quoting && chance.below(2) == 0 { b'"' } else { b' ' + chance.below(95) as u8 };
    let text: Vec<u8> = (0..length).map(|_| byte()).collect();
    [&(text.len() as u16).to_le_bytes(), &text[..]].concat()
}
