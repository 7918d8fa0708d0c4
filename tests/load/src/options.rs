//! The options of a command: `--name number` pairs, each with what it is where it is not given.

use std::collections::BTreeMap;

pub struct Options(BTreeMap<&'static str, u64>);

impl Options {
    /// Reads what follows a command; the message of an error says what was not understood.
    pub fn read(defaults: &[(&'static str, u64)], given: &[String]) -> Result<Self, String> {
        let mut options: BTreeMap<&'static str, u64> = defaults.iter().copied().collect();
        for pair in given.chunks(2) {
            let known = defaults.iter().find(|(name, _)| pair[0] == format!("--{name}"));
            let (name, _) = known.ok_or_else(|| format!("no option {}", pair[0]))?;
            let value = pair.get(1).and_then(|value| value.parse().ok());
            options.insert(name, value.ok_or_else(|| format!("--{name} needs a number"))?);
        }
        Ok(Options(options))
    }

    pub fn get(&self, name: &str) -> u64 {
        self.0[name]
    }

    /// How many threads work.
    pub fn jobs(&self) -> usize {
        self.get("jobs") as usize
    }
}
