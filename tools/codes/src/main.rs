//! Writes each file that follows from the list of words and symbols: `cargo run -p codes`.

use std::path::Path;

fn main() -> std::io::Result<()> {
    let root = Path::new(env!("CARGO_MANIFEST_DIR")).join("../..");
    for (path, text) in codes::outputs() {
        std::fs::write(root.join(path), text)?;
    }
    Ok(())
}
