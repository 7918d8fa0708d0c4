//! Short names, all different and none of them reserved.

/// No reserved word of up to four letters begins with one of these.
const FIRST: &[u8] = b"ghjkqwyz";
const OTHER: &[u8] = b"abcdefghijklmnopqrstuvwxyz0123456789_";

/// The name of a number; shorter names come first.
pub fn name(mut number: usize) -> String {
    let mut length = 0;
    let mut names = FIRST.len();
    while number >= names {
        number -= names;
        names *= OTHER.len();
        length += 1;
    }
    let mut bytes = vec![FIRST[number % FIRST.len()]];
    number /= FIRST.len();
    for _ in 0..length {
        bytes.push(OTHER[number % OTHER.len()]);
        number /= OTHER.len();
    }
    String::from_utf8(bytes).expect("letters and digits")
}

#[cfg(test)]
mod tests {
    use super::name;
    use std::collections::BTreeSet;

    #[test]
    fn names_are_different_and_short() {
        let names: BTreeSet<String> = (0..40_000).map(name).collect();
        assert_eq!(names.len(), 40_000);
        assert!(names.iter().all(|name| name.len() <= 4));
    }
}
