//! Options of the command line: `--name VALUE`, flags, and plain words.

use std::collections::BTreeMap;

/// Options that take no value.
const FLAGS: [&str; 4] = ["self", "job", "text", "rename"];

#[derive(Debug, Default)]
pub struct Arguments {
    options: BTreeMap<String, String>,
    plain: Vec<String>,
}

impl Arguments {
    pub fn parse(words: impl Iterator<Item = String>) -> Result<Self, String> {
        let mut arguments = Arguments::default();
        let mut words = words;
        while let Some(word) = words.next() {
            match word.strip_prefix("--") {
                None => arguments.plain.push(word),
                Some(name) if FLAGS.contains(&name) => {
                    arguments.options.insert(name.into(), String::new());
                }
                Some(name) => {
                    let value = words.next().ok_or(format!("--{name} needs a value"))?;
                    arguments.options.insert(name.into(), value);
                }
            }
        }
        Ok(arguments)
    }

    /// Refuses options that the command does not have, and more plain words than
    /// it takes.
    pub fn allow(&self, names: &[&str], plain: usize) -> Result<(), String> {
        match self.options.keys().find(|name| !names.contains(&name.as_str())) {
            Some(name) => Err(format!("this command has no option --{name}")),
            None if self.plain.len() > plain => {
                Err(format!("unexpected argument {}", self.plain[plain]))
            }
            None => Ok(()),
        }
    }

    pub fn number(&self, name: &str, default: u64) -> Result<u64, String> {
        match self.options.get(name) {
            None => Ok(default),
            Some(text) => {
                let digits = text.replace(['_', ','], "");
                digits.parse().map_err(|_| format!("--{name} needs a number, not {text}"))
            }
        }
    }

    pub fn text(&self, name: &str) -> Option<&str> {
        self.options.get(name).map(String::as_str)
    }

    pub fn flag(&self, name: &str) -> bool {
        self.options.contains_key(name)
    }

    pub fn plain(&self) -> &[String] {
        &self.plain
    }
}
