//! Names as they are shown: nothing in them moves the cursor of a terminal.

/// A name; control letters, and bytes that are no UTF-8, are written like `\x1b`.
pub fn shown(name: &[u8]) -> String {
    let mut text = String::new();
    for chunk in name.utf8_chunks() {
        for letter in chunk.valid().chars() {
            match letter.is_control() {
                true => text += &letter.to_string().as_bytes().escape_ascii().to_string(),
                false => text.push(letter),
            }
        }
        text += &chunk.invalid().escape_ascii().to_string();
    }
    text
}
