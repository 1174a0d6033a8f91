//! A program's arguments: files, and options with a value each.

use crate::model::fault::Fault;
use std::io::{self, Read};

/// The arguments behind a subcommand.
pub struct Arguments {
    pub files: Vec<String>,
    options: Vec<(String, String)>,
}

impl Arguments {
    pub fn new(mut rest: impl Iterator<Item = String>) -> Option<Self> {
        let mut arguments = Self { files: Vec::new(), options: Vec::new() };
        while let Some(word) = rest.next() {
            match word.strip_prefix("--") {
                Some(name) => arguments.options.push((name.to_string(), rest.next()?)),
                None => arguments.files.push(word),
            }
        }
        Some(arguments)
    }

    pub fn option(&self, name: &str) -> Option<&str> {
        self.options.iter().find(|(n, _)| n == name).map(|(_, value)| value.as_str())
    }

    pub fn number(&self, name: &str, default: u64) -> u64 {
        let number = self.option(name).map(str::parse);
        number.unwrap_or(Ok(default)).unwrap_or_else(|_| fail(&format!("--{name} takes a number")))
    }

    pub fn seed(&self) -> u64 {
        self.number("seed", 1)
    }

    pub fn count(&self) -> u64 {
        self.number("count", 1000)
    }

    pub fn fault(&self) -> Fault {
        match self.option("fault") {
            None => Fault::None,
            Some(name) => Fault::from_name(name).unwrap_or_else(|| fail("no such fault")),
        }
    }

    /// The bytes of the n-th file, or of standard input if there is no first.
    pub fn file(&self, n: usize) -> io::Result<Vec<u8>> {
        match self.files.get(n) {
            Some(path) => std::fs::read(path),
            None if n > 0 => Ok(Vec::new()),
            None => {
                let mut bytes = Vec::new();
                io::stdin().read_to_end(&mut bytes)?;
                Ok(bytes)
            }
        }
    }
}

/// Ends the program: it was called wrongly.
pub fn fail(message: &str) -> ! {
    eprintln!("{message}");
    std::process::exit(2);
}
