//! Names that are spelled nearly alike.

/// Names longer than this are not compared.
const LONGEST: usize = 40;

/// Whether one or two slips of a pen, few beside the length of a name, lead from it to another one.
pub fn is_near(name: &[u8], other: &[u8]) -> bool {
    let slips = match name.len() {
        0..=2 => return false,
        3..=5 => 1,
        _ => 2,
    };
    name.len().max(other.len()) <= LONGEST && distance(name, other) <= slips
}

/// How many letters must be put in, taken out or exchanged (Levenshtein's distance), without case.
fn distance(name: &[u8], other: &[u8]) -> usize {
    let mut row: Vec<usize> = (0..=other.len()).collect();
    for (taken, letter) in name.iter().enumerate() {
        let mut before = row[0];
        row[0] = taken + 1;
        for (i, wanted) in other.iter().enumerate() {
            let exchanged = before + usize::from(!letter.eq_ignore_ascii_case(wanted));
            before = row[i + 1];
            row[i + 1] = exchanged.min(before + 1).min(row[i] + 1);
        }
    }
    row[other.len()]
}

#[test]
fn slips_are_counted() {
    let cases =
        [("step", "STEP", 0), ("stepp", "step", 1), ("setp", "step", 2), ("", "abc", 3), ("kitten", "sitting", 3)];
    for (name, other, slips) in cases {
        assert_eq!(distance(name.as_bytes(), other.as_bytes()), slips, "{name} {other}");
        assert_eq!(distance(other.as_bytes(), name.as_bytes()), slips, "{other} {name}");
    }
    assert!(is_near(b"stepp", b"step") && !is_near(b"ab", b"a") && !is_near(b"setp", b"step"));
}
