//! Tables in lines of a readable length.

/// Entries of a table.
const ENTRIES_IN_LINE: usize = 16;

/// Characters of a text.
const CHARACTERS_IN_LINE: usize = 120;

/// Characters of a line of code.
const CHARACTERS_IN_CODE: usize = 100;

/// As the inside of a byte string that goes on over the line's end.
pub fn bytes_in_lines(bytes: &[u8]) -> String {
    let line = |part: &[u8]| part.iter().map(|byte| format!("\\x{byte:02x}")).collect::<String>();
    joined(bytes.chunks(ENTRIES_IN_LINE).map(line))
}

/// Text likewise.
pub fn text_in_lines(text: &str) -> String {
    joined(parts(text).into_iter())
}

/// Text as the bytes of several strings, in the definitions.
pub fn strings_in_lines(text: &str) -> String {
    let lines: Vec<String> = parts(text).iter().map(|part| format!("    bytes \"{part}\"")).collect();
    lines.join(" ++\n")
}

/// The lines of a text of plain characters without a quote.
fn parts(text: &str) -> Vec<String> {
    let line = |part: &[u8]| String::from_utf8_lossy(part).replace('\\', "\\\\");
    text.as_bytes().chunks(CHARACTERS_IN_LINE).map(line).collect()
}

fn joined(lines: impl Iterator<Item = String>) -> String {
    lines.map(|line| format!("    {line}")).collect::<Vec<_>>().join("\\\n")
}

/// As the entries of an array, in lines that are as full as `rt fmt` has them.
pub fn entries_in_lines(numbers: &[usize]) -> String {
    let (mut text, mut line) = (String::new(), String::from("   "));
    for number in numbers {
        let entry = format!(" {number},");
        if line.len() + entry.len() > CHARACTERS_IN_CODE {
            text += &(line + "\n");
            line = String::from("   ");
        }
        line += &entry;
    }
    text + &line + "\n"
}

/// As a list of the definitions.
pub fn numbers_in_lines(numbers: &[usize]) -> String {
    let line = |part: &[usize]| part.iter().map(|number| format!("{number} ∷ ")).collect::<String>();
    let lines: Vec<String> =
        numbers.chunks(ENTRIES_IN_LINE).map(|part| format!("    {}", line(part).trim_end())).collect();
    lines.join("\n") + " []"
}
