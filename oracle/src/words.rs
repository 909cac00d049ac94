//! Task files in a notation of words: `c:` `d:` `k:` `f:` `v:` `h:` open the six sections (without `h:` the constraint is an empty Conj),
//! a number is a byte, `#7` a number of 2 bytes, `*4` four zero bytes, `'x` a name, `"x` a text, a capital letter some usual piece.

/// Letters, and the words that they stand for.
pub type Usual = [(&'static str, &'static str)];

/// A sort, an expression; predicates: a KVar, a variable, one literally true, one literally false; an empty Conj; ForAlls without a body.
pub const USUAL: &Usual = &[
    ("S", "0"), ("E", "5 'e"), ("K", "0 'k #0"), ("P", "1 5 'p"), ("T", "1 1 1"), ("F", "1 1 0"), ("C", "1 #0"), ("X", "2 'x 0 #0"),
    ("Y", "2 'y 0 #0"), ("Z", "2 'z 0 #0"),
];

/// Declarations of the names in them.
pub const DECLARED: &str = "k: 'e 1 'p 1 v: 'k #0";

/// The bytes of one word, or nothing if it is no word of the notation.
fn spelled(word: &str, usual: &Usual) -> Option<Vec<u8>> {
    let (first, rest) = word.split_at_checked(1)?;
    Some(match first {
        "'" => [&[u8::try_from(rest.len()).ok()?], rest.as_bytes()].concat(),
        "\"" => [&u16::try_from(rest.len()).ok()?.to_le_bytes(), rest.as_bytes()].concat(),
        "#" => rest.parse::<u16>().ok()?.to_le_bytes().to_vec(),
        "*" => vec![0; rest.parse::<u16>().ok()?.into()],
        _ => match usual.iter().find(|(letter, _)| *letter == word) {
            Some((_, words)) => bytes(words, usual).ok()?,
            None => vec![word.parse().ok()?],
        },
    })
}

/// The bytes of words; or the first word that is none.
pub fn bytes(words: &str, usual: &Usual) -> Result<Vec<u8>, String> {
    let spelled = words.split_whitespace().map(|word| spelled(word, usual).ok_or(word.to_string()));
    Ok(spelled.collect::<Result<Vec<_>, _>>()?.concat())
}

/// The six sections.
pub fn sections(words: &str, usual: &Usual) -> Result<Vec<Vec<u8>>, String> {
    let (mut sections, mut at, mut opened) = (vec![String::new(); 6], 0, false);
    for word in words.split_whitespace() {
        match "c: d: k: f: v: h:".split(' ').position(|opening| opening == word) {
            Some(section) => (at, opened) = (section, opened || section == 5),
            None => sections[at].extend([word, " "]),
        }
    }
    if !opened {
        sections[5] = "1 #0".to_string();
    }
    sections.iter().map(|words| bytes(words, usual)).collect()
}

/// A file with this body and these offsets.
pub fn sealed(body: &[u8], offsets: [usize; 6]) -> Vec<u8> {
    let offsets: Vec<u8> = offsets.iter().flat_map(|offset| (*offset as u32).to_le_bytes()).collect();
    [body, &offsets, b"HORN"].concat()
}

/// Where each section begins if they stand one behind the other.
pub fn offsets(sections: &[Vec<u8>]) -> [usize; 6] { std::array::from_fn(|i| sections[..i].iter().map(Vec::len).sum()) }

pub fn joined(sections: &[Vec<u8>]) -> Vec<u8> { sealed(&sections.concat(), offsets(sections)) }

/// The file of words that are known to be right.
pub fn packed(words: &str) -> Vec<u8> { joined(&sections(words, USUAL).unwrap_or_else(|word| panic!("no word: {word}"))) }

/// The file of such words, with the usual names declared in front.
pub fn closed(words: &str) -> Vec<u8> { packed(&format!("{DECLARED} {words}")) }

/// The case that the papers work out.
pub const S: &str = "k: 'n 0 v: 'k0 #1 0 \
    h: 2 'x 0 #1 1 10 3 5 'x 0 *16 1 #3 0 0 'k0 #1 5 'x 0 T 2 'y 0 #1 0 'k0 #1 5 'y 0 1 10 3 5 'y 5 'n";
