//! What has to hold of every rendering, seen from its text alone.
use crate::strings::{in_exprs, in_pred, read, strings};
use crate::task::{accepted, Answer, Constraint, Expr, Pred, Task};
use crate::text::{write_smt_horn, Edition, Rendering};
use std::{collections::HashSet, slice::from_ref};

/// The number of heads that are not literally true.
fn heads(constraint: &Constraint) -> usize {
    match constraint {
        Constraint::Pred(head) => !head.is_trivially_true() as usize,
        Constraint::Conj(members) => members.iter().map(heads).sum(),
        Constraint::ForAll(_, _, body) => heads(body),
    }
}

/// The number of commands in a text, for a reader who knows comments, strings and parentheses only.
fn commands(text: &str) -> usize {
    let (mut depth, mut closed, mut comment, mut string) = (0, 0, false, false);
    for byte in text.bytes() {
        comment = if comment { byte != b'\n' } else { byte == b';' && !string };
        string ^= byte == b'"' && !comment;
        if !comment && !string {
            depth += (byte == b'(') as usize;
            depth -= (byte == b')') as usize;
            closed += (byte == b')' && depth == 0) as usize;
            assert!(depth > 0 || b" \n)".contains(&byte), "{} outside a command", byte as char);
        }
    }
    assert!(depth == 0 && !comment && !string);
    closed
}

/// The parts are those that the task calls for, one behind the other, and each but the blank line is one command.
fn check(task: &Task, rendering: &Rendering) {
    let declarations = task.datatypes.len() + task.constants.len() + task.functions.len() + task.kvars.len();
    let (script, parts) = (&rendering.script, rendering.ends.len());
    assert!(parts == declarations + rendering.assertions + 3 && rendering.assertions == heads(&task.constraint));
    assert!(rendering.ends.is_sorted() && rendering.ends.last() == Some(&script.len()) && script.is_ascii());
    let strings: HashSet<&str> = strings(task).into_iter().collect();
    assert!(read(script).strings.iter().all(|string| strings.contains(&string[..])), "a string that the task has not");
    assert!(rendering.part(0).starts_with("(set-logic HORN)\n\n") && rendering.part(parts - 1) == "\n(check-sat)\n");
    for i in 0..parts {
        let (part, blank) = (rendering.part(i), i == declarations + 1);
        assert!(part.ends_with('\n') && commands(part) == !blank as usize && (part == "\n") == blank);
        assert_eq!(part.starts_with("(assert "), i > declarations + 1 && i < parts - 1);
    }
}

/// The seven set functions: their codes, and their names in the two editions (W-205).
const SETS: [(usize, &str, &str); 7] = [
    (38, "emptyset", "set.empty"), (39, "singleton", "set.singleton"), (40, "union", "set.union"), (41, "intersection", "set.inter"),
    (42, "setminus", "set.minus"), (43, "subset", "set.subset"), (44, "member", "set.member"),
];

/// The set functions of a predicate.
fn sets_in(pred: &Pred) -> usize {
    let mut count = 0;
    in_pred(pred, &mut |expr| count += is_set(expr) as usize);
    count
}

fn is_set(expr: &Expr) -> bool { matches!(expr, Expr::ThyFunc(function, _) if SETS.iter().any(|set| set.0 == *function)) }

/// Those in the assertions of a constraint, whose guards have so many: a guard stands in the assertion of each head under it.
fn sets_asserted(constraint: &Constraint, guards: usize) -> usize {
    match constraint {
        Constraint::Pred(head) if head.is_trivially_true() => 0,
        Constraint::Pred(head) => guards + sets_in(head),
        Constraint::Conj(members) => members.iter().map(|member| sets_asserted(member, guards)).sum(),
        Constraint::ForAll(_, preds, body) => {
            sets_asserted(body, guards + preds.iter().filter(|pred| !pred.is_trivially_true()).map(sets_in).sum::<usize>())
        }
    }
}

/// How many set functions a task's script has.
pub fn sets(task: &Task) -> usize {
    let mut defined = 0;
    let bodies = task.functions.iter().filter_map(|function| function.body.as_ref());
    bodies.for_each(|body| in_exprs(from_ref(&body.expr), &mut |expr| defined += is_set(expr) as usize));
    defined + sets_asserted(&task.constraint, 0)
}

/// A text cut into comments, strings, words and single bytes between them.
fn words(text: &str) -> Vec<&str> {
    let (mut words, mut rest) = (Vec::new(), text);
    while let Some(first) = rest.chars().next() {
        let length = match first {
            ';' => rest.find('\n').expect("a line's end"),
            '"' => 1 + rest[1..].find('"').expect("a string's end") + 1,
            '(' | ')' | ' ' | '\n' => 1,
            _ => rest.find(['(', ')', ' ', '\n', '"', ';']).unwrap_or(rest.len()),
        };
        let (word, behind) = rest.split_at(length);
        words.push(word);
        rest = behind;
    }
    words
}

/// The two scripts of a task differ in as many words as it has set functions, each in its own name, and in no other.
fn check_editions(task: &Task, z3: &Rendering, cvc5: &Rendering) {
    let (z3, cvc5) = (words(&z3.script), words(&cvc5.script));
    assert_eq!(z3.len(), cvc5.len());
    let differ: Vec<(&str, &str)> = z3.into_iter().zip(cvc5).filter(|(z3, cvc5)| z3 != cvc5).collect();
    assert!(differ.iter().all(|pair| SETS.iter().any(|set| (set.1, set.2) == *pair)), "{differ:?}");
    assert_eq!(differ.len(), sets(task));
}

/// The scripts of a file in both editions, or its refusal, and what has to hold of them.
pub fn checked(file: &[u8]) -> Answer<[Rendering; 2]> {
    let task = accepted(file)?;
    let renderings = Edition::BOTH.map(|edition| write_smt_horn(&task, edition));
    renderings.iter().for_each(|rendering| check(&task, rendering));
    check_editions(&task, &renderings[0], &renderings[1]);
    Ok(renderings)
}
