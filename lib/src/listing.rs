//! The listing of a file, byte for byte that of the proved program (R13 to R15).

use crate::file::File;
use crate::refusal::Refusal;
use std::io::Write;

/// What is written to a vector always fits.
const FITS: &str = "a vector takes all bytes";

impl File<'_> {
    /// Appends the listing.
    pub fn list(&self, out: &mut Vec<u8>) {
        writeln!(out, "accepted {}", self.report().constants).expect(FITS);
        for constant in self.constants() {
            lower(out, constant.schema());
            out.push(b'.');
            lower(out, constant.name());
            writeln!(out, " = {}", constant.answer()).expect(FITS);
        }
    }
}

impl Refusal<'_> {
    /// Appends the listing, which is one line.
    pub fn list(&self, out: &mut Vec<u8>) {
        writeln!(out, "refused {} at {}", self.number(), self.beside()).expect(FITS);
    }
}

fn lower(out: &mut Vec<u8>, name: &str) {
    out.extend(name.bytes().map(|byte| byte.to_ascii_lowercase()));
}
