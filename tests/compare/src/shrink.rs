//! A file made smaller while something holds of it (delta debugging): statements are dropped first, then tokens, then bytes.

use crate::units::{parts, Unit};

/// A smaller file of which `holds` holds still; it is asked at most `tries` times.
pub fn shrink(mut file: Vec<u8>, mut tries: usize, mut holds: impl FnMut(&[u8]) -> bool) -> Vec<u8> {
    loop {
        let before = file.len();
        for unit in [Unit::Statement, Unit::Token, Unit::Byte] {
            file = dropped(parts(&file, unit), &mut tries, &mut holds);
        }
        if file.len() == before || tries == 0 {
            return file;
        }
    }
}

/// What is left when runs of parts are dropped, long runs first.
fn dropped(mut parts: Vec<&[u8]>, tries: &mut usize, holds: &mut impl FnMut(&[u8]) -> bool) -> Vec<u8> {
    for run in runs(parts.len()) {
        // A long run is tried from every half of its length on, a short one from everywhere.
        let step = if run > SHORT { run / 2 } else { 1 };
        let mut at = 0;
        while at + run <= parts.len() && *tries > 0 {
            *tries -= 1;
            if holds(&[&parts[..at], &parts[at + run..]].concat().concat()) {
                parts.drain(at..at + run);
            } else {
                at += step;
            }
        }
    }
    parts.concat()
}

/// Runs of up to so many parts are tried at every length, and from every place on.
const SHORT: usize = 8;

/// The lengths of runs to try: halves of halves, and then every short one.
fn runs(parts: usize) -> impl Iterator<Item = usize> {
    let halves = std::iter::successors(Some(parts / 2), |run| Some(run / 2)).take_while(|&run| run > SHORT);
    halves.chain((1..=SHORT).rev())
}
