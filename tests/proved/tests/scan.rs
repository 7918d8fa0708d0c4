//! The proved token reader gives what the reference's gives, on any bytes and with columns of any lengths.

use compare::{cases, random};
use proved::{scan, scan_to};
use reference::{tokens, Refusal, TokenRow, MAX_BYTES};

const FILES: u64 = 20_000;
/// Entries before and after what is lent of a column, which no call may touch.
const MARGIN: usize = 2;

/// A column whose entries differ from each other and from rows, of which the middle is lent.
struct Column<T> {
    entries: Vec<T>,
}

impl<T: Copy + PartialEq + std::fmt::Debug> Column<T> {
    fn new(length: usize, pattern: fn(usize) -> T) -> Self {
        Column { entries: (0..length + 2 * MARGIN).map(pattern).collect() }
    }

    fn lent(&mut self) -> &mut [T] {
        let end = self.entries.len() - MARGIN;
        &mut self.entries[MARGIN..end]
    }

    /// The same column with the rows written as far as they fit.
    fn with(mut self, rows: impl Iterator<Item = T>) -> Vec<T> {
        self.lent().iter_mut().zip(rows).for_each(|(entry, value)| *entry = value);
        self.entries
    }
}

fn byte(i: usize) -> u8 {
    0xa5 ^ i as u8
}

fn word(i: usize) -> u32 {
    0xdead_0000 ^ i as u32
}

/// All tokens of a file, or those before the refusal, by the reference.
fn rows(bytes: &[u8]) -> Vec<TokenRow> {
    match tokens::read(bytes) {
        Ok(rows) => rows,
        Err(Refusal { reply: 1, .. }) => Vec::new(),
        // What ends before a refused token is read in the same way where the file ends there.
        Err(refusal) => tokens::read(&bytes[..refusal.number as usize]).expect("tokens before the refusal"),
    }
}

/// Holds the proved reader to the reference, with columns of the given lengths.
fn hold(bytes: &[u8], rows: &[TokenRow], lengths: [usize; 3]) {
    let columns = || (Column::new(lengths[0], byte), Column::new(lengths[1], word), Column::new(lengths[2], word));
    let (mut kinds, mut starts, mut sizes) = columns();
    let outcome = scan(bytes, kinds.lent(), starts.lent(), sizes.lent());
    let told = || format!("lengths {lengths:?}: {}", bytes.escape_ascii());
    let room = lengths.into_iter().min().unwrap();
    assert_eq!(outcome, reference::scan(bytes, room).outcome.map(|count| count as usize), "{}", told());
    let expected = columns();
    assert!(kinds.entries == expected.0.with(rows.iter().map(|row| row.kind)), "kinds, {}", told());
    assert!(starts.entries == expected.1.with(rows.iter().map(|row| row.start)), "starts, {}", told());
    assert!(sizes.entries == expected.2.with(rows.iter().map(|row| row.length)), "lengths, {}", told());
}

/// With columns of 0 entries, one too few, just enough and one more; then of different lengths.
fn hold_at_all_lengths(bytes: &[u8], seed: u64) {
    let rows = rows(bytes);
    let needed = rows.len();
    let (less, more) = (needed.saturating_sub(1), needed + 1);
    for length in [0, less, needed, more] {
        hold(bytes, &rows, [length; 3]);
    }
    for lengths in [[less, needed, more], [more, less, needed], [needed, more, less], [0, more, needed]] {
        hold(bytes, &rows, lengths);
    }
    let [kinds, starts, lengths, _] = random::lengths(seed, [needed; 4]);
    hold(bytes, &rows, [kinds, starts, lengths]);
}

#[test]
fn random_and_damaged_files() {
    for seed in 0..FILES {
        hold_at_all_lengths(&random::file(seed), seed);
    }
}

#[test]
fn the_corpus() {
    for (case, seed) in cases::all().iter().zip(0..) {
        hold_at_all_lengths(&case.input, seed);
        let [tokens, ..] = case.lengths;
        hold(&case.input, &rows(&case.input), [tokens; 3]);
    }
}

/// Remarks in remarks and to the end of a line, reals with and without their parts, quotes in strings, most symbols.
#[test]
fn a_text_of_every_sort_of_token() {
    let text = br"SCHEMA Press; (* a remark (* in a remark *) *)
CONSTANT
  stroke : INTEGER := step * 3;      -- to the end of the line
  mask : BINARY := %10 + %011;
  r : REAL := 1.e5 + 2.5E-3 + 1.e;   (*)*) 5--3
  s : STRING := 'it''s' ; t := '''' :<>: a:=:b
END_CONSTANT; 12ab <* ** || [ ] { } \ / ? <> <= >= < > | , . 9223372036854775807
END_SCHEMA;
";
    assert_eq!(rows(text).len(), 70);
    hold_at_all_lengths(text, 0);
}

/// Every text of up to five of the bytes that open, part and close tokens and remarks.
#[test]
fn all_short_texts() {
    const BYTES: &[u8] = b"(*)-'%1e.+:<>=| \n\"";
    let mut shorter = vec![Vec::new()];
    for _ in 0..5 {
        let longer = |text: &Vec<u8>| BYTES.iter().map(|&byte| [text.as_slice(), &[byte]].concat()).collect::<Vec<_>>();
        shorter = shorter.iter().flat_map(longer).collect();
        shorter.iter().for_each(|text| hold(text, &rows(text), [5; 3]));
    }
}

/// Each byte alone, within a word and within a string.
#[test]
fn all_bytes() {
    for byte in 0..=255 {
        for text in [vec![byte], vec![b'a', byte, b'b'], vec![b'\'', byte, b'\''], vec![byte, byte]] {
            hold_at_all_lengths(&text, byte.into());
        }
    }
}

/// A file of the largest size between two texts, and one that is a byte longer.
fn hold_filled(head: &str, byte: u8, foot: &str) {
    for size in [MAX_BYTES, MAX_BYTES + 1] {
        let mut file = head.as_bytes().to_vec();
        file.resize(size - foot.len(), byte);
        file.extend(foot.as_bytes());
        assert_eq!(file.len(), size);
        hold_at_all_lengths(&file, 0);
    }
}

#[test]
fn files_of_one_sort_of_bytes() {
    hold_filled("", b'(', "");
    hold_filled("(*", b' ', "*)");
    hold_filled("(*", b'(', "*)");
    hold_filled("", b'*', "");
    hold_filled("--", b'-', "");
    hold_filled("", b' ', "");
    hold_filled("", b'a', "");
    hold_filled("'", b'x', "'");
    hold_filled("'", b'\'', "'");
    hold_filled("'", b'x', "");
    hold_filled("", b'0', "");
    hold_filled("", b'9', "");
    hold_filled("0.", b'0', "");
    hold_filled("%", b'1', "");
    hold_filled("", b'%', "");
    hold_filled("", 0, "");
    let remarks = "(*".repeat(MAX_BYTES / 4) + &"*)".repeat(MAX_BYTES / 4);
    hold_at_all_lengths(remarks.as_bytes(), 0);
    hold_at_all_lengths("'a' ".repeat(MAX_BYTES / 4).as_bytes(), 0);
    hold_at_all_lengths("7 ".repeat(MAX_BYTES / 2).as_bytes(), 0);
}

/// A text is read up to its limit, and one byte less refuses it by 1, with nothing written.
#[test]
fn a_limit_of_any_size() {
    let long = b"word 12 ".repeat(20_000);
    for bytes in (0..200).map(random::file).chain([long]) {
        let (mut kinds, mut starts, mut sizes) = (vec![7; bytes.len()], vec![7; bytes.len()], vec![7; bytes.len()]);
        if let Some(less) = (bytes.len() as u32).checked_sub(1) {
            let refused = scan_to(&bytes, less, &mut kinds, &mut starts, &mut sizes);
            assert_eq!(refused, Err(Refusal { reply: 1, number: less.into() }), "{}", bytes.escape_ascii());
            assert!(kinds.iter().all(|&kind| kind == 7) && starts.iter().chain(&sizes).all(|&entry| entry == 7));
        }
        let read = scan_to(&bytes, bytes.len() as u32, &mut kinds, &mut starts, &mut sizes);
        if bytes.len() > MAX_BYTES {
            assert_eq!(read, Ok(40_000));
        } else {
            assert_eq!(read, scan(&bytes, &mut kinds, &mut starts, &mut sizes), "{}", bytes.escape_ascii());
        }
    }
}
