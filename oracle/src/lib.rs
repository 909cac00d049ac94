//! A rendering of the task of Jiggerreef in Rust, from the same papers and with nothing of the crates in it: it reads a task file, refuses
//! it or writes its script. Beside it stand makers of task files. The programs of this package compare the two and record answers.
pub mod chance;
pub mod check;
pub mod draft;
pub mod faults;
pub mod limits;
pub mod meaning;
pub mod returns;
pub mod runs;
pub mod scope;
pub mod shrink;
pub mod strings;
pub mod task;
pub mod text;
pub mod words;

#[cfg(test)]
mod tests {
    use super::{chance::*, check::*, faults::*, limits::*, meaning::*, runs::*, shrink::*, task::*, text::*, words::*};
    use std::collections::HashSet;

    const EACH: usize = 300;

    fn check_answer(name: &str, case: &Case) {
        let answer = checked(&case.file).err().unwrap_or(0);
        assert!(case.due.is_none_or(|due| due == answer), "{name}: {answer}, bytes {:?}", case.file);
    }

    #[test]
    fn files_get_the_answers_they_were_made_for() {
        let mut chance = Chance::new(SEED);
        for (name, _, make) in &KINDS {
            (0..EACH).for_each(|_| check_answer(name, &make.case(&mut chance)));
        }
    }

    #[test]
    fn two_faults_put_into_a_file_both_hold() {
        let mut chance = Chance::new(SEED);
        let kinds = KINDS.iter().filter(|kind| kind.0 == "two-faults" || kind.0.ends_with("-and-other"));
        for case in kinds.flat_map(|kind| [kind; EACH]).map(|kind| kind.2.case(&mut chance)) {
            let pair = case.pair.expect("two faults");
            if pair.iter().all(|refusal| NOTED.contains(refusal)) {
                assert!(noted(&case.file).is_ok_and(|noted| pair.iter().all(|refusal| noted.contains(refusal))), "{pair:?}: {:?}", case.file);
            }
        }
    }

    #[test]
    fn limits_get_the_answers_they_were_made_for() {
        let limits = limits();
        limits.iter().for_each(|(name, case)| check_answer(name, case));
        assert_eq!(limits.iter().map(|(name, _)| name).collect::<HashSet<_>>().len(), limits.len());
    }

    #[test]
    fn runs_are_parts_one_after_another() {
        let rendering = rendered(&packed(S), Edition::Z3).expect("an accepted file");
        for (first, count) in (0..=7).flat_map(|first| (0..=7 - first).map(move |count| (first, count))) {
            let parts: Vec<&str> = (first..first + count).map(|i| rendering.part(i)).collect();
            let (text, lengths) = (parts.concat(), parts.iter().map(|part| part.len() as u32).collect());
            assert_eq!(rendering.run(&Run { first, count, room: text.len(), places: count }), Ok((&text[..], lengths)));
        }
    }

    #[test]
    fn runs_by_chance_break_every_two_rules() {
        let rendering = rendered(&packed(S), Edition::Z3).expect("an accepted file");
        let (mut chance, mut tried) = (Chance::new(SEED), Tried::default());
        for script in [Some(&rendering), None].repeat(5 * EACH) {
            let (kind, run) = any_run(&mut chance, script);
            tried.add(kind, &run, script);
        }
        assert!(tried.rules.iter().enumerate().all(|(i, behind)| behind[i..].iter().all(|runs| *runs > 0)), "{:?}", tried.rules);
    }

    #[test]
    fn reserved_words_are_found() {
        assert!(RESERVED.is_sorted() && RESERVED.iter().all(|word| !is_symbol(word.as_bytes())) && is_symbol(b"asserts"));
    }

    /// What tree and assertions are in some interpretations with up to two values a sort.
    fn meanings(file: &[u8]) -> HashSet<(bool, bool)> {
        let task = decoded(file).expect("a task");
        let mut meaning = Meaning::new(&task);
        (1..1_000).map(|seed| meaning.holds(Draw { seed, values: 3, odds: 2 })).collect()
    }

    #[test]
    fn flattening_keeps_the_meaning() {
        let same = HashSet::from([(true, true), (false, false)]);
        assert_eq!(meanings(&packed(S)), same);
        assert_eq!(meanings(&packed("h: 1 #0")), HashSet::from([(true, true)]));
        assert_eq!(meanings(&packed("h: 2 'x 1 #1 1 5 'x 2 'y 1 #0 0 1 5 'y")), same);
    }

    #[test]
    fn what_7_15_and_10_refuse_can_mean_something_else() {
        let captured = "1 #1 1 5 'y 2 'y 1 #0 0 1 5 'y";
        for (refusal, words) in [(7, format!("h: 2 'y {captured}")), (15, format!("k: 'y 1 h: 2 'x {captured}")), (10, format!("h: 2 'x {captured}"))] {
            let file = packed(&words);
            assert!(noted(&file) == Ok(vec![refusal]) && captures(&decoded(&file).expect("a task").constraint));
            assert!(meanings(&file).contains(&(false, true)), "{refusal}");
        }
    }

    #[test]
    fn a_file_shrinks_to_what_shows_its_fault() {
        let file = packed("c: \"long k: 'a 0 'b 1 v: 'k #0 h: 1 #3 0 K 0 1 6 0 T");
        assert_eq!(smallest(&file, |file| checked(file).is_err_and(|refusal| refusal == 14)), packed("h: 1 #3 0 K 0 1 6 0 T"));
        let file = packed("c: \"long k: 'a 0 'b 1 v: 'k #0 h: 2 'y 0 #1 P 2 'a 0 #0 0 K");
        assert_eq!(smallest(&file, |file| checked(file).is_err_and(|refusal| refusal == 15)), packed("k: 'a 0 h: 2 'a 0 #0 0 K"));
        let file = packed("c: \"long k: 'a 0 'b 1 v: 'k #1 0 h: 1 #3 0 T 2 'y 0 #1 1 5 'y 0 0 'k #1 5 'c 0 1 5 'b");
        assert_eq!(smallest(&file, |file| checked(file).is_err_and(|refusal| refusal == 10)), packed("h: 0 1 5 'b"));
        let file = packed("c: \"long k: 'a 0 'b 1 v: 'j #0 'k #1 0 h: 2 'y 0 #1 1 5 'y 0 0 'k #0");
        assert_eq!(smallest(&file, |file| checked(file).is_err_and(|refusal| refusal == 11)), packed("v: 'k #1 0 h: 0 0 'k #0"));
    }
}
