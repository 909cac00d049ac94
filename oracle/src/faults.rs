//! Kinds of task files by chance: valid ones, ones with one fault or two, and damaged ones.
use crate::chance::Chance;
use crate::draft::{named, symbol, text, Draft, Place, Plan, Role, Spot, DECLARED, HARMLESS};
use crate::task::{
    is_symbol, CLASH, CONSTRAINT_CODES, DEEPEST, EXPR_CODES, FORMS, LONGEST_FILE, MAP_DEFAULT, MISCOUNTED, NOTED, PRED_CODES, REFUSALS,
    RESERVED, SET_EMPTY, SORT_CODES, TRAILER, UNKNOWN,
};
use crate::words::{joined, offsets, sealed};
use std::{iter, ops::Range, ptr};
use Make::{By, With};

/// A file; the answer it was made for, if there is one: 0 for an accepted file, else the refusal; and the refusals of the two faults that were put
/// into it, the first in the file in front.
pub struct Case { pub file: Vec<u8>, pub due: Option<u8>, pub pair: Option<[u8; 2]> }

impl Case {
    pub fn new(file: Vec<u8>, due: Option<u8>) -> Self { Case { file, due, pair: None } }
}

/// A way to make a file: by itself, or a valid one with one fault that gets this refusal.
pub enum Make { By(fn(&mut Chance) -> Case), With(u8, Fault) }

/// What is put in place of the bytes of a span to make a draft faulty; nothing if the draft has no place for the fault. `kept` are spans of
/// bytes elsewhere that the fault needs as they are, with their sections; `absent` is a name behind its length, or nothing, that no other
/// fault may put in.
type Fault = fn(&Draft, &mut Chance) -> Option<Splice>;
pub struct Splice { section: usize, span: Range<usize>, bytes: Vec<u8>, kept: Vec<(usize, Range<usize>)>, absent: Vec<u8> }

/// A kind of files: its name, its share among all, and how one is made.
pub type Kind = (&'static str, usize, Make);

pub const KINDS: [Kind; 73] = [
    ("tree", 200, By(|chance| valid(chance, SMALL))),
    ("middle", 40, By(|chance| valid(chance, Plan { pieces: 300, items: 5, ..SMALL }))),
    ("large", 2, By(|chance| valid(chance, Plan { pieces: 1500, items: 20, ..SMALL }))),
    ("wide", 1, By(|chance| valid(chance, Plan { items: 150, ..SMALL }))),
    ("deep", 15, By(|chance| valid(chance, Plan { target: DEEPEST, ..SMALL }))),
    ("chain", 15, By(|chance| valid(chance, Plan { target: DEEPEST, chain: true, ..SMALL }))),
    ("size", 1, By(sized)),
    ("harmless-binder", 30, By(harmless_binder)),
    ("kvar-again", 10, By(kvar_again)),
    ("1-length", 3, By(wrong_length)),
    ("1-mark", 3, By(wrong_mark)),
    ("1-offset", 12, By(wrong_offset)),
    ("2-code", 20, With(2, wrong_code)),
    ("2-choice", 20, With(2, wrong_choice)),
    ("2-name", 10, With(2, empty_name)),
    ("2-text", 10, With(2, endless_text)),
    ("2-cut", 20, With(2, cut_item)),
    ("2-left", 5, With(2, bytes_left)),
    ("2-none", 2, With(2, no_constraint)),
    ("3-deep", 10, By(too_deep)),
    ("3-sort", 8, With(3, deep_sort)),
    ("3-expr", 8, With(3, deep_expr)),
    ("3-pred", 8, With(3, deep_pred)),
    ("3-constraint", 8, With(3, deep_constraint)),
    ("4-name", 40, With(4, wrong_name)),
    ("4-comment", 10, With(4, wrong_comment)),
    ("4-string", 10, With(4, wrong_string)),
    ("5-datatype", 12, With(5, no_ctors)),
    ("12-bitvec", 10, With(12, bitvec_of_sort)),
    ("12-width", 12, With(12, width_elsewhere)),
    ("13-function", 12, With(13, bare_function)),
    ("13-app", 8, With(13, function_without_sort)),
    ("14-wkvar", 12, With(14, weak_kvar)),
    ("6-arguments", 20, With(6, wrong_arguments)),
    ("7-binder", 20, With(7, repeated_binder)),
    ("15-binder", 15, With(CLASH, declared_binder)),
    ("15-declared", 15, With(CLASH, binder_declared)),
    ("10-var", 8, With(UNKNOWN, misspelt)),
    ("10-head", 4, With(UNKNOWN, |draft, chance| unknown_as(draft, chance, Role::Head))),
    ("10-let-value", 4, With(UNKNOWN, |draft, chance| unknown_as(draft, chance, Role::LetValue))),
    ("10-guard", 4, With(UNKNOWN, |draft, chance| unknown_as(draft, chance, Role::Guard))),
    ("10-body-head", 4, With(UNKNOWN, |draft, chance| unknown_as(draft, chance, Role::BodyHead))),
    ("10-kvar-argument", 4, With(UNKNOWN, |draft, chance| unknown_as(draft, chance, Role::KVarArgument))),
    ("10-function-body", 4, With(UNKNOWN, |draft, chance| unknown_as(draft, chance, Role::FunctionBody))),
    ("10-tested", 4, With(UNKNOWN, |draft, chance| unknown_as(draft, chance, Role::Tested))),
    ("10-quantified", 4, With(UNKNOWN, |draft, chance| unknown_as(draft, chance, Role::Quantified))),
    ("10-own-let", 6, With(UNKNOWN, own_let)),
    ("10-let-behind", 6, With(UNKNOWN, |draft, chance| behind(draft, chance, |spot| *spot == Spot::Name('L')))),
    ("10-quant-behind", 6, With(UNKNOWN, |draft, chance| behind(draft, chance, |spot| *spot == Spot::Name('J')))),
    ("10-arg-behind", 6, With(UNKNOWN, |draft, chance| behind(draft, chance, |spot| *spot == Spot::Name('G')))),
    ("10-binder-behind", 6, With(UNKNOWN, |draft, chance| behind(draft, chance, is_binder))),
    ("10-binder-before", 4, With(UNKNOWN, |draft, chance| out_of_scope(draft, chance, is_binder, Place::is_before))),
    ("10-function", 6, With(UNKNOWN, |draft, chance| out_of_scope(draft, chance, |spot| *spot == Spot::Name('Y'), |_, _| true))),
    ("10-kvar", 6, With(UNKNOWN, |draft, chance| out_of_scope(draft, chance, |spot| *spot == Spot::Name('Z'), |_, _| true))),
    ("10-datatype", 6, With(UNKNOWN, |draft, chance| out_of_scope(draft, chance, |spot| *spot == Spot::Name('O'), |_, _| true))),
    ("10-theory", 6, With(UNKNOWN, theory_symbol)),
    ("10-tester", 12, With(UNKNOWN, no_ctor)),
    ("10-predicate", 12, With(UNKNOWN, no_kvar)),
    ("11-none", 8, With(MISCOUNTED, |draft, chance| miscounted(draft, chance, |sorts, _| (sorts > 0).then_some(0)))),
    ("11-some", 8, With(MISCOUNTED, |draft, chance| miscounted(draft, chance, |sorts, any| (sorts == 0).then_some(1 + any)))),
    ("11-other", 8, With(MISCOUNTED, |draft, chance| miscounted(draft, chance, |sorts, any| (sorts > 0 && 1 + any != sorts).then_some(1 + any)))),
    ("11-again", 8, With(MISCOUNTED, kvar_before)),
    ("two-faults", 60, By(|chance| two_faults(chance, |_| true))),
    ("form-and-other", 60, By(|chance| two_faults(chance, |[a, b]| a != b && FORMS.contains(&a) && NOTED.contains(&b)))),
    ("clash-and-other", 40, By(|chance| two_faults(chance, |[a, b]| a == CLASH && b != a && NOTED.contains(&b)))),
    ("name-and-other", 60, By(|chance| two_faults(chance, |[a, b]| a == UNKNOWN && b != a && NOTED.contains(&b)))),
    ("count-and-other", 60, By(|chance| two_faults(chance, |[a, b]| a == MISCOUNTED && b != a && NOTED.contains(&b)))),
    ("border", 20, By(moved_border)),
    ("changed", 160, By(|chance| damaged(chance, change))),
    ("inserted", 60, By(|chance| damaged(chance, insert))),
    ("removed", 60, By(|chance| damaged(chance, remove))),
    ("swapped", 40, By(|chance| damaged(chance, swap))),
    ("cut", 20, By(cut_off)),
];

impl Make {
    pub fn case(&self, chance: &mut Chance) -> Case {
        match self {
            By(make) => make(chance),
            With(refusal, fault) => {
                let (mut draft, splice) = drafted(chance, fault);
                splice.apply(&mut draft);
                Case::new(draft.file(), Some(*refusal))
            }
        }
    }
}

/// A kind by chance, according to the shares.
pub fn any_kind(chance: &mut Chance) -> &'static Kind {
    let mut left = chance.below(KINDS.iter().map(|kind| kind.1).sum());
    KINDS.iter().find(|kind| left.checked_sub(kind.1).map(|rest| left = rest).is_none()).expect("a share")
}

// ---- Valid files

const SMALL: Plan = Plan { pieces: 60, items: 2, target: 0, chain: false };

fn valid(chance: &mut Chance, plan: Plan) -> Case { Case::new(Draft::new(chance, plan).file(), Some(0)) }

/// As long as can be, or a byte longer: the rest is a comment.
fn sized(chance: &mut Chance) -> Case {
    let (mut draft, over) = (Draft::new(chance, SMALL), chance.below(2));
    let rest = LONGEST_FILE + over - draft.file().len() - 2;
    draft.sections[0].extend((rest as u16).to_le_bytes().into_iter().chain(vec![b'-'; rest]));
    Case::new(draft.file(), Some(over as u8))
}

/// A ForAll with a name that it may have: a harmless one, or one that is nearly declared. The Vars that mean it are renamed too.
fn harmless_binder(chance: &mut Chance) -> Case {
    let (mut draft, splices) = drafted(chance, |draft, chance| {
        let letter = HARMLESS[chance.below(HARMLESS.len())];
        let name = if chance.below(2) == 0 { draft.at(named_by(draft, chance, letter)?).to_vec() } else { nearly_declared(draft, chance)? };
        let taken = |place: &Place| is_taken(&place.spot) && draft.at(place) == name;
        let free = is_symbol(&name[1..]) && !draft.places.iter().any(taken);
        let binder = place(draft, chance, is_binder).filter(|_| free)?;
        let is_meant = |number: usize| ptr::eq(&draft.places[number], binder);
        let means = |place: &&Place| is_var(&place.spot) && draft.meant(place, draft.at(place)).is_some_and(is_meant);
        Some(iter::once(binder).chain(draft.places.iter().filter(means)).map(|place| Splice::at(place, name.clone())).collect::<Vec<_>>())
    });
    splices.into_iter().rev().for_each(|splice| splice.apply(&mut draft));
    Case::new(draft.file(), Some(0))
}

/// A KVar declared again behind all others, with another number of sorts: the first counts.
fn kvar_again(chance: &mut Chance) -> Case {
    let (mut draft, splice) = drafted(chance, |draft, chance| {
        let (place, end) = (named_by(draft, chance, 'H')?, draft.sections[4].len());
        Some(Splice::new(4, end..end, another_kvar(draft, chance, draft.at(place))))
    });
    splice.apply(&mut draft);
    Case::new(draft.file(), Some(0))
}

/// A declared name with another last byte, with a byte more or without its last, behind its length.
fn nearly_declared(draft: &Draft, chance: &mut Chance) -> Option<Vec<u8>> {
    let mut name = draft.at(any_declared(draft, chance)?)[1..].to_vec();
    match chance.below(3) {
        0 => *name.last_mut()? ^= 1 << chance.below(6),
        1 if name.len() < 255 => name.push(b'a'),
        _ => drop(name.pop()),
    }
    Some(named(&name))
}

// ---- One fault

impl Splice {
    fn new(section: usize, span: Range<usize>, bytes: Vec<u8>) -> Self { Splice { section, span, bytes, kept: Vec::new(), absent: Vec::new() } }
    fn at(place: &Place, bytes: Vec<u8>) -> Self { Splice::new(place.section, place.span.clone(), bytes) }

    /// At one place what stands at another.
    fn copy(draft: &Draft, to: &Place, from: &Place) -> Self {
        Splice::at(to, draft.at(from).to_vec()).keeping(from)
    }

    /// A Var at a place, with a name behind its length that is to be unknown there.
    fn var(to: &Place, name: Vec<u8>) -> Self { Splice { absent: name.clone(), ..Splice::at(to, [&[5], &name[..]].concat()) } }

    fn keeping(mut self, place: &Place) -> Self {
        self.kept.push((place.section, place.span.clone()));
        self
    }

    fn apply(self, draft: &mut Draft) { drop(draft.sections[self.section].splice(self.span, self.bytes)) }
    /// What stands in front of it starts before it, or is put in where it starts.
    fn order(&self) -> (usize, usize, usize) { (self.section, self.span.start, self.span.end) }

    /// Whether it leaves the bytes of a span alone.
    fn spares(&self, section: usize, span: &Range<usize>) -> bool {
        self.section != section || self.span.end <= span.start || span.end <= self.span.start
    }

    /// Whether the fault of another is there beside this one.
    fn goes_with(&self, other: &Splice) -> bool {
        let brings = |name: &[u8]| !name.is_empty() && self.bytes.windows(name.len()).any(|bytes| bytes == name);
        self.spares(other.section, &other.span) && other.keeps_beside(self) && !brings(&other.absent)
    }

    /// Whether what this fault needs is left alone by another.
    fn keeps_beside(&self, other: &Splice) -> bool { self.kept.iter().all(|(section, span)| other.spares(*section, span)) }
}

/// A valid draft and what `fault` finds in it.
fn drafted<T>(chance: &mut Chance, fault: impl Fn(&Draft, &mut Chance) -> Option<T>) -> (Draft, T) {
    loop {
        let draft = Draft::new(chance, SMALL);
        if let Some(found) = fault(&draft, chance) {
            return (draft, found);
        }
    }
}

fn place_of<'d>(draft: &'d Draft, chance: &mut Chance, fits: impl Fn(&Place) -> bool) -> Option<&'d Place> {
    let places: Vec<&Place> = draft.places.iter().filter(|place| fits(place)).collect();
    if places.is_empty() { None } else { Some(places[chance.below(places.len())]) }
}

fn place<'d>(draft: &'d Draft, chance: &mut Chance, fits: impl Fn(&Spot) -> bool) -> Option<&'d Place> {
    place_of(draft, chance, |place| fits(&place.spot))
}

fn wrong_length(chance: &mut Chance) -> Case {
    let file = Draft::new(chance, SMALL).file();
    let few = chance.below(TRAILER);
    Case::new(if chance.below(2) == 0 { file[..few].to_vec() } else { file[file.len() - few..].to_vec() }, Some(1))
}

fn wrong_mark(chance: &mut Chance) -> Case {
    let mut file = Draft::new(chance, SMALL).file();
    let at = file.len() - 1 - chance.below(4);
    file[at] ^= 1 << chance.below(8);
    Case::new(file, Some(1))
}

/// The first offset not 0, one below the one before or above the one behind, the last above the trailer's place.
fn wrong_offset(chance: &mut Chance) -> Case {
    let draft = Draft::new(chance, SMALL);
    let (body, mut offsets, i) = (draft.sections.concat(), offsets(&draft.sections), chance.below(6));
    let before = if i == 0 { 0 } else { offsets[i - 1] };
    let most = if i == 5 { body.len() } else { offsets[i + 1] };
    offsets[i] = match chance.below(3) {
        0 if before > 0 => before - 1,
        1 if i == 0 => 1,
        1 => offsets[i] + (1 << (16 + chance.below(16))),
        _ => most + 1,
    };
    Case::new(sealed(&body, offsets), Some(1))
}

/// A byte that is no code below `bound`.
fn beyond(chance: &mut Chance, bound: usize) -> u8 { (bound + chance.below(2) * chance.below(256 - bound)) as u8 }

fn wrong_code(draft: &Draft, chance: &mut Chance) -> Option<Splice> {
    let place = place(draft, chance, |spot| matches!(spot, Spot::Piece(_)))?;
    let codes = match place.spot {
        Spot::Piece('S') => SORT_CODES,
        Spot::Piece('E') => EXPR_CODES,
        Spot::Piece('P') => PRED_CODES,
        _ => CONSTRAINT_CODES,
    };
    Some(Splice::new(place.section, place.span.start..place.span.start + 1, vec![beyond(chance, codes)]))
}

/// A flag, an operation, a relation, a quantifier or a theory function.
fn wrong_choice(draft: &Draft, chance: &mut Chance) -> Option<Splice> {
    let place = place(draft, chance, |spot| matches!(spot, Spot::Choice(_)))?;
    let Spot::Choice(bound) = place.spot else { return None };
    Some(Splice::at(place, vec![beyond(chance, bound as usize)]))
}

fn is_name(spot: &Spot) -> bool { matches!(spot, Spot::Name(_) | Spot::Binder(_)) }
fn is_var(spot: &Spot) -> bool { matches!(spot, Spot::Name('N' | 'n')) }
fn is_expr(spot: &Spot) -> bool { matches!(spot, Spot::Piece('E') | Spot::Head) }
fn is_binder(spot: &Spot) -> bool { matches!(spot, Spot::Binder(_)) }

/// A name that a ForAll has or may not have.
fn is_taken(spot: &Spot) -> bool { is_binder(spot) || DECLARED.iter().any(|letter| *spot == Spot::Name(*letter)) }

fn empty_name(draft: &Draft, chance: &mut Chance) -> Option<Splice> { Some(Splice::at(place(draft, chance, is_name)?, vec![0])) }

/// A text with a length above that of any section.
fn endless_text(draft: &Draft, chance: &mut Chance) -> Option<Splice> {
    let place = place(draft, chance, |spot| matches!(spot, Spot::String | Spot::Comment))?;
    Some(Splice::new(place.section, place.span.start..place.span.start + 2, vec![255, 255]))
}

/// The section ends inside an item.
fn cut_item(draft: &Draft, chance: &mut Chance) -> Option<Splice> {
    let place = place(draft, chance, |spot| *spot == Spot::Item)?;
    let cut = place.span.start + 1 + chance.below(place.span.len() - 1);
    Some(Splice::new(place.section, cut..draft.sections[place.section].len(), Vec::new()))
}

fn bytes_left(draft: &Draft, chance: &mut Chance) -> Option<Splice> {
    let (end, bytes) = (draft.sections[5].len(), (0..1 + chance.below(3)).map(|_| chance.below(4) as u8).collect());
    Some(Splice::new(5, end..end, bytes))
}

fn no_constraint(draft: &Draft, _: &mut Chance) -> Option<Splice> {
    Some(Splice::new(5, 0..draft.sections[5].len(), Vec::new()))
}

fn too_deep(chance: &mut Chance) -> Case {
    let chain = chance.below(2) == 0;
    Case::new(Draft::new(chance, Plan { target: DEEPEST + 1, chain, ..SMALL }).file(), Some(3))
}

/// A form around itself from a place of this kind on, `last` behind it, and something or nothing due at level 257.
fn nested(draft: &Draft, chance: &mut Chance, kind: char, form: &[u8], last: &[u8]) -> Option<Splice> {
    let place = place(draft, chance, |spot| *spot == Spot::Piece(kind))?;
    let due = [&[][..], &[0], &[255]][chance.below(3)];
    Some(Splice::at(place, [&form.repeat(DEEPEST + 1 - place.level - last.len()), last, due].concat()))
}

fn deep_sort(draft: &Draft, chance: &mut Chance) -> Option<Splice> { nested(draft, chance, 'S', &[9, 1, 0], &[]) }
fn deep_expr(draft: &Draft, chance: &mut Chance) -> Option<Splice> { nested(draft, chance, 'E', &[7], &[]) }
fn deep_pred(draft: &Draft, chance: &mut Chance) -> Option<Splice> { nested(draft, chance, 'C', &[1, 1, 0], &[0]) }
fn deep_constraint(draft: &Draft, chance: &mut Chance) -> Option<Splice> { nested(draft, chance, 'C', &[1, 1, 0], &[]) }

/// Bytes that no symbol has.
const NO_SYMBOL: &[u8] = b" \"#'(),:;\\`{|}[]\n\t\0\x7f\x80\xff";

/// A reserved word, a digit in front, or a byte that no symbol has.
fn wrong_name(draft: &Draft, chance: &mut Chance) -> Option<Splice> {
    let (place, mut name) = (place(draft, chance, is_name)?, symbol(chance).into_bytes());
    match chance.below(3) {
        0 => name = RESERVED[chance.below(RESERVED.len())].into(),
        1 => name[0] = b'0' + chance.below(10) as u8,
        _ => {
            let at = chance.below(name.len());
            name[at] = NO_SYMBOL[chance.below(NO_SYMBOL.len())];
        }
    }
    Some(Splice::at(place, named(&name)))
}

/// A text with one of the bytes that it may not have.
fn wrong_text(draft: &Draft, chance: &mut Chance, spot: Spot) -> Option<Splice> {
    let (place, mut text) = (place(draft, chance, |found| *found == spot)?, text(chance, 40));
    let (at, bytes) = (chance.below(text.len() - 1), [0, 9, 10, 13, 31, 127, 128, 255]);
    text.insert(2 + at, bytes[chance.below(bytes.len())]);
    text[0] += 1;
    Some(Splice::at(place, text))
}

fn wrong_comment(draft: &Draft, chance: &mut Chance) -> Option<Splice> { wrong_text(draft, chance, Spot::Comment) }
fn wrong_string(draft: &Draft, chance: &mut Chance) -> Option<Splice> { wrong_text(draft, chance, Spot::String) }

/// `bytes` in place of some piece.
fn instead(draft: &Draft, chance: &mut Chance, bytes: &[u8], fits: impl Fn(&Spot) -> bool) -> Option<Splice> {
    Some(Splice::at(place(draft, chance, fits)?, bytes.to_vec()))
}

fn no_ctors(draft: &Draft, chance: &mut Chance) -> Option<Splice> { instead(draft, chance, &[0, 0], |spot| *spot == Spot::Ctors) }

fn bitvec_of_sort(draft: &Draft, chance: &mut Chance) -> Option<Splice> {
    let sort = [&[0][..], &[3], &[6, 1, 0], &[9, 0, 0], &[11, 1, b'D', 0, 0]][chance.below(5)];
    instead(draft, chance, sort, |spot| *spot == Spot::Width)
}

fn width_elsewhere(draft: &Draft, chance: &mut Chance) -> Option<Splice> {
    instead(draft, chance, &[5, 8, 0, 0, 0], |spot| *spot == Spot::Piece('S'))
}

fn weak_kvar(draft: &Draft, chance: &mut Chance) -> Option<Splice> {
    instead(draft, chance, &[6], is_expr)
}

/// One of the two functions that need a sort.
fn needs_sort(chance: &mut Chance) -> u8 { [SET_EMPTY, MAP_DEFAULT][chance.below(2)] as u8 }

/// Such a function by itself.
fn bare_function(draft: &Draft, chance: &mut Chance) -> Option<Splice> {
    let function = needs_sort(chance);
    instead(draft, chance, &[18, function], |spot| *spot == Spot::Piece('E'))
}

/// Such a function as the head of an App without an output sort.
fn function_without_sort(draft: &Draft, chance: &mut Chance) -> Option<Splice> {
    let function = needs_sort(chance);
    instead(draft, chance, &[17, 0, 18, function, 0, 0], |spot| *spot == Spot::Piece('E'))
}

/// More argument names or fewer.
fn wrong_arguments(draft: &Draft, chance: &mut Chance) -> Option<Splice> {
    let place = place(draft, chance, |spot| *spot == Spot::Args)?;
    let many = draft.sections[place.section][place.span.start] as usize;
    let other = (many + 1 + chance.below(many + 3)) % (many + 4);
    let names = (0..other).flat_map(|_| named(symbol(chance).as_bytes()));
    Some(Splice::at(place, [other as u8, 0].into_iter().chain(names.collect::<Vec<_>>()).collect()))
}

fn repeated_binder(draft: &Draft, chance: &mut Chance) -> Option<Splice> {
    let place = place(draft, chance, |spot| matches!(spot, Spot::Binder(Some(_))))?;
    let Spot::Binder(Some(outer)) = place.spot else { return None };
    Some(Splice::copy(draft, place, &draft.places[outer]))
}

/// A place of a name with this letter.
fn named_by<'d>(draft: &'d Draft, chance: &mut Chance, letter: char) -> Option<&'d Place> {
    place(draft, chance, |spot| *spot == Spot::Name(letter))
}

/// A place of a declared name, of each kind alike.
fn any_declared<'d>(draft: &'d Draft, chance: &mut Chance) -> Option<&'d Place> {
    let letter = DECLARED[chance.below(DECLARED.len())];
    named_by(draft, chance, letter)
}

/// A ForAll gets a declared name.
fn declared_binder(draft: &Draft, chance: &mut Chance) -> Option<Splice> {
    Some(Splice::copy(draft, place(draft, chance, is_binder)?, any_declared(draft, chance)?))
}

/// Something declared gets the name of a ForAll.
fn binder_declared(draft: &Draft, chance: &mut Chance) -> Option<Splice> {
    Some(Splice::copy(draft, any_declared(draft, chance)?, place(draft, chance, is_binder)?))
}

// ---- Names that are not known. A place knows what is known there, so each of these can tell.

/// A name that is nearly declared or new, behind its length.
fn strange_name(draft: &Draft, chance: &mut Chance) -> Option<Vec<u8>> {
    let name = if chance.below(2) == 0 { nearly_declared(draft, chance)? } else { named(symbol(chance).as_bytes()) };
    is_symbol(&name[1..]).then_some(name)
}

/// A Var with a name that is not known in its place.
fn misspelt(draft: &Draft, chance: &mut Chance) -> Option<Splice> {
    let (place, name) = (place(draft, chance, is_var)?, strange_name(draft, chance)?);
    draft.meant(place, &name).is_none().then(|| Splice { absent: name.clone(), ..Splice::at(place, name) })
}

/// A Var with a strange name in place of an expression with this role.
fn unknown_as(draft: &Draft, chance: &mut Chance, role: Role) -> Option<Splice> {
    let (place, name) = (place_of(draft, chance, |place| is_expr(&place.spot) && place.role == role)?, strange_name(draft, chance)?);
    draft.meant(place, &name).is_none().then(|| Splice::var(place, name))
}

/// A Let's name in its first operand.
fn own_let(draft: &Draft, chance: &mut Chance) -> Option<Splice> {
    let value = place_of(draft, chance, |place| is_expr(&place.spot) && place.role == Role::LetValue)?;
    let own = draft.places.iter().find(|place| place.spot == Spot::Name('L') && place.ends_at(value))?;
    let name = draft.at(own).to_vec();
    draft.meant(value, &name).is_none().then(|| Splice::var(value, name).keeping(own))
}

/// The name at a place of this kind as a Var elsewhere, where it is not known.
fn out_of_scope(draft: &Draft, chance: &mut Chance, fits: fn(&Spot) -> bool, lies: fn(&Place, &Place) -> bool) -> Option<Splice> {
    let (to, from) = (place(draft, chance, is_expr)?, place(draft, chance, fits)?);
    let (name, splice) = (draft.at(from), Splice::var(to, draft.at(from).to_vec()).keeping(from));
    (lies(to, from) && draft.meant(to, name).is_none() && splice.keeps_beside(&splice)).then_some(splice)
}

/// Such a name behind all that it holds for.
fn behind(draft: &Draft, chance: &mut Chance, fits: fn(&Spot) -> bool) -> Option<Splice> {
    out_of_scope(draft, chance, fits, |to, from| from.is_before(to))
}

/// A symbol that SMT-LIB gives a meaning, as a Var.
fn theory_symbol(draft: &Draft, chance: &mut Chance) -> Option<Splice> {
    let symbols = ["true", "false", "and", "or", "not", "=>", "=", "+", "-", "<=", "ite", "div", "select", "Int", "Bool"];
    let (place, name) = (place(draft, chance, is_expr)?, named(symbols[chance.below(symbols.len())].as_bytes()));
    draft.meant(place, &name).is_none().then(|| Splice::var(place, name))
}

/// A name with this letter or a strange one, behind its length; none of those with the other letter.
fn other_name(draft: &Draft, chance: &mut Chance, letters: &[char], not: char) -> Option<Vec<u8>> {
    let letter = letters[chance.below(letters.len())];
    let name = if chance.below(4) == 0 { strange_name(draft, chance)? } else { draft.at(named_by(draft, chance, letter)?).to_vec() };
    let is_one = draft.places.iter().any(|place| place.spot == Spot::Name(not) && draft.at(place) == name);
    (!is_one).then_some(name)
}

/// An IsCtor of what is no constructor: a datatype, a field, a constant, a function, an argument, a KVar, or nothing.
fn no_ctor(draft: &Draft, chance: &mut Chance) -> Option<Splice> {
    let (place, name) = (named_by(draft, chance, 'W')?, other_name(draft, chance, &['O', 'I', 'X', 'Y', 'G', 'Z'], 'R')?);
    Some(Splice { absent: name.clone(), ..Splice::at(place, name) })
}

/// A KVar predicate of what is no KVar: a constant, a function, a constructor, a field, a datatype, or nothing.
fn no_kvar(draft: &Draft, chance: &mut Chance) -> Option<Splice> {
    let (place, name) = (named_by(draft, chance, 'H')?, other_name(draft, chance, &['X', 'Y', 'R', 'I', 'O'], 'Z')?);
    Some(Splice { absent: name.clone(), ..Splice::at(place, name) })
}

// ---- KVars with another number of arguments than sorts

/// The place of the name in the first declaration of a KVar, and its number of sorts.
fn declaration<'d>(draft: &'d Draft, name: &[u8]) -> Option<(&'d Place, usize)> {
    let place = draft.places.iter().find(|place| place.spot == Spot::Name('Z') && draft.at(place) == name)?;
    let count = &draft.sections[place.section][place.span.end..];
    Some((place, count[0] as usize + 256 * count[1] as usize))
}

/// Another number of arguments, by the number of sorts and a number below 4.
fn miscounted(draft: &Draft, chance: &mut Chance, other: fn(usize, usize) -> Option<usize>) -> Option<Splice> {
    let args = place(draft, chance, |spot| *spot == Spot::Applied)?;
    let name = draft.places.iter().find(|place| place.spot == Spot::Name('H') && place.ends_at(args))?;
    let (declared, sorts) = declaration(draft, draft.at(name))?;
    let many = other(sorts, chance.below(4))?;
    let given = (0..many).flat_map(|_| [1, chance.below(2) as u8]).collect::<Vec<_>>();
    let splice = Splice::at(args, [&(many as u16).to_le_bytes(), &given[..]].concat());
    let item = Place { span: declared.span.start..declared.span.end + 2, ..declared.clone() };
    Some(Splice { absent: draft.at(name).to_vec(), ..splice }.keeping(name).keeping(&item))
}

/// The item of a KVar with this name and another number of sorts than its declaration has.
fn another_kvar(draft: &Draft, chance: &mut Chance, name: &[u8]) -> Vec<u8> {
    let sorts = declaration(draft, name).map_or(0, |(_, sorts)| sorts);
    let other = (sorts + 1 + chance.below(sorts + 3)) % (sorts + 4);
    [name, &(other as u16).to_le_bytes(), &vec![0; other]].concat()
}

/// A KVar declared once more in front of the others.
fn kvar_before(draft: &Draft, chance: &mut Chance) -> Option<Splice> {
    let used = named_by(draft, chance, 'H')?;
    let splice = Splice::new(4, 0..0, another_kvar(draft, chance, draft.at(used)));
    Some(Splice { absent: draft.at(used).to_vec(), ..splice }.keeping(used))
}

/// The faults of one kind each that get a refusal.
fn faults_of(refusal: u8) -> Vec<Fault> {
    KINDS.iter().filter_map(|kind| if let With(own, fault) = kind.2 { Some(fault).filter(|_| own == refusal) } else { None }).collect()
}

/// Two refusals that are chosen, and a fault for each.
fn two_of(chance: &mut Chance, chosen: fn([u8; 2]) -> bool) -> [(u8, Fault); 2] {
    loop {
        let two = [0, 1].map(|_| REFUSALS[1 + chance.below(REFUSALS.len() - 1)]);
        if chosen(two) {
            return two.map(|refusal| {
                let faults = faults_of(refusal);
                (refusal, faults[chance.below(faults.len())])
            });
        }
    }
}

/// Two faults that do not touch, with refusals to choose from: the first of those with 2 or 3 is met, else the first judged is answered.
fn two_faults(chance: &mut Chance, chosen: fn([u8; 2]) -> bool) -> Case {
    let (mut draft, mut two) = drafted(chance, |draft, chance| {
        let [(first, one), (second, other)] = two_of(chance, chosen);
        let [a, b] = [one(draft, chance)?, other(draft, chance)?];
        // Two ForAlls with one declared name could be a repeat, which is another fault
        let alike = [first, second] == [CLASH; 2] && a.bytes == b.bytes;
        (a.goes_with(&b) && b.goes_with(&a) && !alike).then_some([(first, a), (second, b)])
    });
    two.sort_by_key(|(_, splice)| splice.order());
    let numbers = two.each_ref().map(|(refusal, _)| *refusal);
    two.into_iter().rev().for_each(|(_, splice)| splice.apply(&mut draft));
    let met = numbers.iter().find(|refusal| !NOTED.contains(refusal));
    let judged = NOTED.iter().find(|refusal| numbers.contains(refusal));
    Case { file: draft.file(), due: met.or(judged).copied(), pair: Some(numbers) }
}

// ---- Damage, which may get any answer

/// The border between two sections moved a little.
fn moved_border(chance: &mut Chance) -> Case {
    let draft = Draft::new(chance, SMALL);
    let (mut offsets, i) = (offsets(&draft.sections), 1 + chance.below(5));
    offsets[i] = (offsets[i] + 3 + [1, 1, 2, 3][chance.below(4)]).saturating_sub([3, 4, 5, 6, 7, 7][chance.below(6)]);
    Case::new(sealed(&draft.sections.concat(), offsets), None)
}

/// A valid file with one to three edits in its sections; the offsets mostly move along, and now and then a byte of the trailer is changed.
fn damaged(chance: &mut Chance, edit: fn(&mut Chance, &mut Vec<u8>)) -> Case {
    let mut sections = Draft::new(chance, SMALL).sections;
    let before = offsets(&sections);
    for _ in 0..1 + chance.below(3) {
        let section = Some(chance.below(6)).filter(|section| !sections[*section].is_empty()).unwrap_or(5);
        edit(chance, &mut sections[section]);
    }
    let mut file = if chance.below(6) == 0 { sealed(&sections.concat(), before) } else { joined(&sections) };
    if chance.below(24) == 0 {
        let at = file.len() - 1 - chance.below(TRAILER);
        file[at] ^= 1 << chance.below(8);
    }
    Case::new(file, None)
}

/// A valid file cut off, with the trailer put behind the cut or not.
fn cut_off(chance: &mut Chance) -> Case {
    let mut file = Draft::new(chance, SMALL).file();
    let cut = chance.below(file.len() - TRAILER);
    if chance.below(2) == 0 { file.truncate(cut) } else { drop(file.drain(cut..file.len() - TRAILER)) }
    Case::new(file, None)
}

fn likely(chance: &mut Chance, byte: u8) -> u8 {
    [byte ^ 1, byte.wrapping_add(1), byte.wrapping_sub(1), chance.below(22) as u8, chance.below(256) as u8][chance.below(5)]
}

fn change(chance: &mut Chance, bytes: &mut Vec<u8>) {
    let at = chance.below(bytes.len());
    bytes[at] = likely(chance, bytes[at]);
}

fn insert(chance: &mut Chance, bytes: &mut Vec<u8>) {
    let at = chance.below(bytes.len());
    let byte = likely(chance, bytes[at]);
    bytes.insert(at, byte);
}

fn remove(chance: &mut Chance, bytes: &mut Vec<u8>) {
    let at = chance.below(bytes.len());
    let many = [1, 1, 2, 3, 8, 20][chance.below(6)].min(bytes.len() - at);
    // A section keeps a byte
    bytes.drain(at..at + many.min(bytes.len() - 1));
}

fn swap(chance: &mut Chance, bytes: &mut Vec<u8>) {
    let [a, b] = [0, 1].map(|_| chance.below(bytes.len()));
    if chance.below(2) == 0 { bytes.swap(a, b) } else { bytes[a.min(b)..].rotate_left(a.max(b) - a.min(b)) }
}
