//! The four calls on the scope document's case and on bytes that are no task, and what is over them.
use jiggerreef::{part, parts, run, run_to_vec, script, survey, Edition, Refusal, Run, Sizes};

const TASK: &[u8] = include_bytes!("../../../crates/hornscript/stdin");
const SCRIPT: &[u8] = include_bytes!("../../../crates/hornscript/stdout");
const FILLED: u8 = 0xa5;
const UNSET: u32 = 0xa5a5_a5a5;

fn number<T>(answer: Result<T, Refusal>) -> Option<u8> {
    answer.err().map(|refusal| refusal.number())
}

/// What the calls answer in both editions, and those over them: the numbers of refusals.
fn numbers(file: &[u8], buf: &mut [u8]) -> [Option<u8>; 12] {
    let mut lengths = [UNSET; 4];
    let [z3, cvc5] = [Edition::Z3, Edition::Cvc5].map(|edition| [
        number(survey(file, edition)), number(part(file, edition, 0, buf)), number(script(file, edition, buf)),
        number(run(file, edition, 0, 1, buf, &mut lengths)), number(run_to_vec(file, edition, 0, 1)), number(parts(file, edition, 1)),
    ]);
    assert!(z3[3].is_none() || lengths == [UNSET; 4]);
    std::array::from_fn(|i| if i < 6 { z3[i] } else { cvc5[i - 6] })
}

#[test]
fn survey_gives_the_numbers_of_the_script() {
    assert_eq!(survey(TASK, Edition::Z3), Ok(Sizes { parts: 7, assertions: 2, bytes: SCRIPT.len(), longest: 83 }));
}

#[test]
fn parts_joined_are_the_script() {
    let mut joined: Vec<u8> = Vec::new();
    for index in 0..7 {
        let mut buf = [FILLED; 512];
        let length = part(TASK, Edition::Z3, index, &mut buf).unwrap();
        assert!(buf[length..].iter().all(|byte| *byte == FILLED));
        joined.extend(&buf[..length]);
        let mut short = vec![FILLED; length - 1];
        assert_eq!(number(part(TASK, Edition::Z3, index, &mut short)), Some(9));
        assert!(short.iter().all(|byte| *byte == FILLED));
    }
    assert_eq!(joined, SCRIPT);
    assert_eq!([7, usize::MAX].map(|index| number(part(TASK, Edition::Z3, index, &mut [0; 512]))), [Some(8); 2]);
}

#[test]
fn a_script_needs_its_length_and_leaves_the_rest() {
    let mut buf = vec![FILLED; SCRIPT.len() + 100];
    assert_eq!(number(script(TASK, Edition::Z3, &mut buf[..SCRIPT.len() - 1])), Some(9));
    assert!(buf.iter().all(|byte| *byte == FILLED));
    assert_eq!(script(TASK, Edition::Z3, &mut buf[..SCRIPT.len()]), Ok(SCRIPT.len()));
    assert_eq!(script(TASK, Edition::Z3, &mut buf), Ok(SCRIPT.len()));
    assert_eq!(&buf[..SCRIPT.len()], SCRIPT);
    assert!(buf[SCRIPT.len()..].iter().all(|byte| *byte == FILLED));
}

/// What single calls one after another leave of a buffer and a table that are filled, each call into the buffer behind the last written byte with its
/// length put down; and the joined length.
fn singles(first: usize, count: usize) -> (Vec<u8>, Vec<u32>, usize) {
    let (mut buf, mut lengths, mut at) = (vec![FILLED; SCRIPT.len() + 100], vec![UNSET; 10], 0);
    for (i, place) in lengths[..count].iter_mut().enumerate() {
        let length = part(TASK, Edition::Z3, first + i, &mut buf[at..]).unwrap();
        *place = length as u32;
        at += length;
    }
    (buf, lengths, at)
}

/// Calls `run` with the first bytes of a filled buffer and the first places of a filled table, so many of each, and gives what is left of the whole.
fn ran(first: usize, count: usize, room: usize, places: usize) -> (Result<usize, Refusal>, Vec<u8>, Vec<u32>) {
    let (mut buf, mut lengths) = (vec![FILLED; SCRIPT.len() + 100], vec![UNSET; 10]);
    let answer = run(TASK, Edition::Z3, first, count, &mut buf[..room], &mut lengths[..places]);
    (answer, buf, lengths)
}

/// Such a call is refused and changes nothing.
fn assert_refused(refusal: u8, first: usize, count: usize, room: usize, places: usize) {
    let (answer, buf, lengths) = ran(first, count, room, places);
    assert_eq!(number(answer), Some(refusal), "{count} parts from {first} with {room} bytes and {places} places");
    assert!(buf.iter().all(|byte| *byte == FILLED) && lengths.iter().all(|length| *length == UNSET));
}

/// Every run of the 7 parts, those of zero parts up to number 7 included: with just room and with more, and with a byte or a place less.
#[test]
fn a_run_leaves_what_single_calls_leave() {
    for (first, count) in (0..=7).flat_map(|first| (0..=7 - first).map(move |count| (first, count))) {
        let (buf, lengths, joined) = singles(first, count);
        for (room, places) in [(joined, count), (joined + 100, count + 3), (joined, count + 1), (joined + 1, count)] {
            assert_eq!(ran(first, count, room, places.min(10)), (Ok(joined), buf.clone(), lengths.clone()));
        }
        if count > 0 {
            for (room, places) in [(joined - 1, 10), (joined, count - 1), (joined - 1, count - 1), (0, 10), (joined, 0)] {
                assert_refused(9, first, count, room, places);
            }
        }
    }
    assert_eq!(&singles(0, 7).0[..SCRIPT.len()], SCRIPT);
}

/// The sum of first and count is that of numbers: where it passes 2^64 it passes the last part too. 8 comes before 9.
#[test]
fn a_run_past_the_last_part_is_refused() {
    const MOST: usize = usize::MAX;
    for (first, count) in [
        (0, 8), (3, 5), (7, 1), (8, 0), (8, 1), (0, MOST), (1, MOST), (2, MOST), (MOST, 0), (MOST, 1), (MOST, 2), (MOST, MOST),
        (MOST / 2 + 1, MOST / 2 + 1), (1, (1 << 32) + 2), ((1 << 32) + 1, 2),
    ] {
        for (room, places) in [(SCRIPT.len(), 10), (0, 10), (SCRIPT.len(), 0), (0, 0)] {
            assert_refused(8, first, count, room, places);
        }
        assert_eq!(number(run_to_vec(TASK, Edition::Z3, first, count)), Some(8));
    }
}

#[test]
fn survey_refuses_before_a_run_is_looked_at() {
    for (first, count) in [(0, 0), (0, 1), (usize::MAX, usize::MAX)] {
        let (mut buf, mut lengths) = ([FILLED; 8], [UNSET; 8]);
        assert_eq!(number(run(b"no task", Edition::Z3, first, count, &mut buf, &mut lengths)), Some(1));
        assert_eq!(number(run(b"no task", Edition::Cvc5, first, count, &mut [], &mut [])), Some(1));
        assert_eq!((buf, lengths), ([FILLED; 8], [UNSET; 8]));
    }
}

#[test]
fn a_run_goes_into_a_vec() {
    for (first, count) in (0..=7).flat_map(|first| (0..=7 - first).map(move |count| (first, count))) {
        let (buf, lengths, joined) = singles(first, count);
        let run = run_to_vec(TASK, Edition::Z3, first, count).unwrap();
        assert_eq!(run, Run { text: buf[..joined].to_vec(), lengths: lengths[..count].to_vec() });
        let ends = |part: &[u8]| part.last() == Some(&b'\n');
        assert!(run.parts().count() == count && run.parts().all(ends) && run.parts().collect::<Vec<_>>().concat() == run.text);
    }
}

/// However many parts a run has, the iterator gives the same parts one by one, and tells how many are left.
#[test]
fn parts_come_one_by_one_from_runs() {
    let single = |i| {
        let (buf, _, joined) = singles(i, 1);
        buf[..joined].to_vec()
    };
    for at_a_time in [0, 1, 2, 3, 4, 6, 7, 8, 100, usize::MAX] {
        let mut given = parts(TASK, Edition::Z3, at_a_time).unwrap();
        for i in 0..7 {
            assert_eq!(given.len(), 7 - i);
            assert_eq!(given.next(), Some(single(i)));
        }
        assert_eq!((given.len(), given.next(), given.next()), (0, None, None));
        assert_eq!(parts(TASK, Edition::Z3, at_a_time).unwrap().collect::<Vec<_>>().concat(), SCRIPT);
    }
}

#[test]
fn no_task_is_refused_by_every_call_alike() {
    for file in [&b""[..], b"no task", &TASK[..107], &[0; 60_001]] {
        assert_eq!(numbers(file, &mut []), [Some(1); 12]);
    }
}

/// A file with one item in a section (0 comments to 4 KVars) and this constraint.
fn file_with(section: usize, item: &[u8], constraint: &[u8]) -> Vec<u8> {
    let offsets = (0..6).flat_map(|i| if i > section { item.len() as u32 } else { 0 }.to_le_bytes());
    item.iter().chain(constraint).copied().chain(offsets).chain(*b"HORN").collect()
}

const NOTHING: &[u8] = &[1, 0, 0];

/// A datatype without constructors; a BitVec of Int, and a BvSize elsewhere; SetEmpty, and MapDefault under an App without a sort; a WKVar.
#[test]
fn each_form_without_a_text_has_its_number() {
    for (refusal, file) in [
        (5, file_with(1, &[1, b'D', 0, 0, 0, 0], NOTHING)),
        (12, file_with(2, &[1, b'c', 4, 0], NOTHING)),
        (12, file_with(2, &[1, b'c', 5, 8, 0, 0, 0], NOTHING)),
        (13, file_with(0, &[], &[0, 1, 18, 38])),
        (13, file_with(0, &[], &[0, 1, 17, 0, 18, 45, 0, 0])),
        (14, file_with(0, &[], &[0, 1, 6])),
        (12, file_with(2, &[1, b'c', 4, 0], &[0, 1, 6])),
    ] {
        let mut buf = [FILLED; 512];
        assert_eq!(numbers(&file, &mut buf), [Some(refusal); 12]);
        assert!(buf.iter().all(|byte| *byte == FILLED));
    }
}

/// A ForAll named like a constant, a function, a constructor, a field or a KVar, and the merge task: the constant lim; ForAll x with the predicate
/// x < lim, over ForAll lim over the head lim >= x.
#[test]
fn a_for_all_named_like_something_declared_is_refused() {
    const FOR_ALL: &[u8] = &[2, 1, b'x', 0, 0, 0, 1, 0, 0];
    const MERGE: &[u8] = b"\x02\x01x\0\x01\0\x01\x0a\x04\x05\x01x\x05\x03lim\x02\x03lim\0\0\0\0\x01\x0a\x03\x05\x03lim\x05\x01x";
    for file in [
        file_with(2, b"\x03lim\0", MERGE),
        file_with(2, &[1, b'x', 0], FOR_ALL),
        file_with(3, &[1, b'x', 0, 0, 0, 0, 0, 0], FOR_ALL),
        file_with(1, &[1, b'D', 0, 0, 1, 0, 1, b'x', 0, 0], FOR_ALL),
        file_with(1, &[1, b'D', 0, 0, 1, 0, 1, b'c', 1, 0, 1, b'x', 0], FOR_ALL),
        file_with(4, &[1, b'x', 0, 0], FOR_ALL),
    ] {
        let mut buf = [FILLED; 512];
        assert_eq!(numbers(&file, &mut buf), [Some(15); 12]);
        assert!(buf.iter().all(|byte| *byte == FILLED));
    }
    let mut renamed = file_with(2, b"\x03lim\0", MERGE);
    renamed[26] = b'n';
    assert_eq!(number(survey(&renamed, Edition::Z3)), None);
    assert_eq!(number(survey(&file_with(1, &[1, b'x', 0, 0, 1, 0, 1, b'c', 0, 0], FOR_ALL), Edition::Z3)), None);
}

/// A Var that nothing declares, alone, as an App's head, in the first operand of the Let of that name, and in a predicate of a ForAll without
/// heads; one named like a KVar or like its own function; a ForAll's name in front of it; IsCtor of a constant; a predicate of a constant.
#[test]
fn a_name_that_is_not_known_is_refused() {
    for file in [
        file_with(0, &[], b"\0\x01\x05\x01a"),
        file_with(0, &[], b"\0\x01\x11\0\x05\x01a\x01\0\x01\x01"),
        file_with(0, &[], b"\0\x01\x10\x01a\x05\x01a\x01\x01"),
        file_with(0, &[], b"\x02\x01x\0\x01\0\x01\x05\x01a\x01\0\0"),
        file_with(4, b"\x01a\0\0", b"\0\x01\x05\x01a"),
        file_with(3, b"\x01a\0\0\0\0\0\x01\0\0\x05\x01a", NOTHING),
        file_with(0, &[], b"\x01\x02\0\0\x01\x05\x01x\x02\x01x\0\0\0\x01\0\0"),
        file_with(2, b"\x01a\0", b"\0\x01\x13\x01a\x05\x01a"),
        file_with(2, b"\x01a\x01", b"\0\0\x01a\0\0"),
    ] {
        let mut buf = [FILLED; 512];
        assert_eq!(numbers(&file, &mut buf), [Some(10); 12]);
        assert!(buf.iter().all(|byte| *byte == FILLED));
    }
    assert_eq!(number(survey(&file_with(2, b"\x01a\0", b"\0\x01\x05\x01a"), Edition::Z3)), None);
    assert_eq!(number(survey(&file_with(0, &[], b"\0\x01\x10\x01a\x01\x01\x05\x01a"), Edition::Z3)), None);
}

/// KVars over one Int, over none and two, and over one and two with one name, of which the first counts; heads with none to two arguments.
#[test]
fn a_kvar_takes_as_many_arguments_as_it_has_sorts() {
    const HEADS: [&[u8]; 3] = [b"\0\0\x01k\0\0", b"\0\0\x01k\x01\0\x01\x01", b"\0\0\x01k\x02\0\x01\x01\x01\0"];
    for (kvars, sorts) in [(&b"\x01k\x01\0\0"[..], 1), (b"\x01k\0\0", 0), (b"\x01k\x02\0\0\0", 2), (b"\x01k\x01\0\0\x01k\x02\0\0\0", 1)] {
        for (args, head) in HEADS.iter().enumerate() {
            let file = file_with(4, kvars, head);
            let (due, mut buf) = ((args != sorts).then_some(11), [FILLED; 512]);
            assert_eq!(numbers(&file, &mut buf), [due; 12]);
            assert!(due.is_none() || buf.iter().all(|byte| *byte == FILLED));
        }
    }
}

#[test]
fn a_line_break_in_a_comment_is_refused() {
    let mut file = file_with(0, b"\x0c\0\n(check-sat)", NOTHING);
    assert_eq!(number(script(&file, Edition::Z3, &mut [0; 512])), Some(4));
    file[2] = b' ';
    assert_eq!(survey(&file, Edition::Z3).map(|sizes| sizes.parts), Ok(3));
}

#[test]
fn a_quotation_mark_in_a_string_is_written_twice() {
    let mut file = file_with(0, &[], b"\0\x01\x03\x03\0a\"b");
    let mut buf = [FILLED; 512];
    let length = part(&file, Edition::Z3, 2, &mut buf).unwrap();
    assert_eq!(&buf[..length], b"(assert (=> (not \"a\"\"b\") false))\n");
    assert_eq!(survey(&file, Edition::Z3).map(|sizes| sizes.longest), Ok(length));
    file[6] = b'\n';
    assert_eq!(number(survey(&file, Edition::Z3)), Some(4));
}

/// 254 ForAlls inside each other, the most that there may be, and 254 Conjs: a thread of 700 KB has the stack that is promised to be enough.
#[test]
fn the_deepest_tasks_fit_a_small_thread() {
    let for_all = |i: usize| {
        let name = format!("x{i}");
        [&[2, name.len() as u8], name.as_bytes(), &[0, 0, 0]].concat()
    };
    let conj = |_: usize| vec![1, 1, 0];
    for piece in [&for_all as &dyn Fn(usize) -> Vec<u8>, &conj] {
        let mut constraint: Vec<u8> = (0..254).flat_map(piece).collect();
        constraint.extend([0, 0, 1, b'k', 0, 0]);
        let file = file_with(4, &[1, b'k', 0, 0], &constraint);
        let walked = move || {
            let sizes = survey(&file, Edition::Z3).unwrap();
            assert_eq!((sizes.parts, sizes.assertions), (5, 1));
            assert_eq!(script(&file, Edition::Z3, &mut vec![0; sizes.bytes]), Ok(sizes.bytes));
            assert!(part(&file, Edition::Z3, 3, &mut vec![0; sizes.longest]).is_ok());
            assert_eq!(run(&file, Edition::Z3, 0, 5, &mut vec![0; sizes.bytes], &mut [0; 5]), Ok(sizes.bytes));
        };
        std::thread::Builder::new().stack_size(700 << 10).spawn(walked).unwrap().join().unwrap();
    }
}

/// A head that is SetSub of SetEmpty and a union: in both editions, and Z3's is the default.
#[test]
fn the_set_functions_have_the_names_of_the_edition() {
    let empty = b"\x11\x01\x09\x01\0\0\x12\x26\0\0";
    let union = [&b"\x11\0\x12\x28\x02\0"[..], empty, empty].concat();
    let file = file_with(0, &[], &[&b"\0\x01\x11\0\x12\x2b\x02\0"[..], empty, &union].concat());
    for (edition, names) in [(Edition::Z3, ["subset", "emptyset", "union"]), (Edition::Cvc5, ["set.subset", "set.empty", "set.union"])] {
        let [subset, empty, union] = names;
        let none = format!("(as {empty} (Set Int))");
        let assertion = format!("(assert (=> (not ({subset} {none} ({union} {none} {none}))) false))\n");
        let whole = format!("(set-logic HORN)\n\n\n{assertion}\n(check-sat)\n");
        let mut buf = [FILLED; 512];
        assert_eq!(part(&file, edition, 2, &mut buf), Ok(assertion.len()));
        assert_eq!(&buf[..assertion.len()], assertion.as_bytes());
        assert_eq!(script(&file, edition, &mut buf), Ok(whole.len()));
        assert_eq!(&buf[..whole.len()], whole.as_bytes());
        let behind = run_to_vec(&file, edition, 1, 2).unwrap();
        assert_eq!(behind, Run { text: format!("\n{assertion}").into_bytes(), lengths: vec![1, assertion.len() as u32] });
        assert_eq!(parts(&file, edition, 3).unwrap().collect::<Vec<_>>().concat(), whole.as_bytes());
        assert_eq!(survey(&file, edition), Ok(Sizes { parts: 4, assertions: 1, bytes: whole.len(), longest: assertion.len() }));
    }
    assert_eq!(Edition::default(), Edition::Z3);
}
