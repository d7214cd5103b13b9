//! Arguments of the command line, taken apart.

use crate::groups::{Group, GROUPS};
use std::io;

pub enum Failure {
    Usage(String),
    File(io::Error),
}

impl From<io::Error> for Failure {
    fn from(why: io::Error) -> Self {
        Failure::File(why)
    }
}

pub fn usage(why: &str) -> Failure {
    Failure::Usage(why.to_string())
}

/// Plain arguments, and options with one value each.
pub struct Given<'a> {
    pub plain: Vec<&'a str>,
    options: Vec<(&'a str, &'a str)>,
}

impl<'a> Given<'a> {
    pub fn read(args: &'a [String], plain: usize) -> Result<Self, Failure> {
        let mut given = Given { plain: Vec::new(), options: Vec::new() };
        let mut args = args.iter().map(String::as_str);
        while let Some(arg) = args.next() {
            if arg.starts_with("--") {
                let value = args.next().ok_or_else(|| usage(&format!("{arg} has no value")))?;
                given.options.push((arg, value));
            } else {
                given.plain.push(arg);
            }
        }
        if given.plain.len() != plain {
            return Err(usage(&format!("{} names where {plain} belong", given.plain.len())));
        }
        Ok(given)
    }

    pub fn only(&self, known: &[&str]) -> Result<(), Failure> {
        match self.options.iter().find(|(name, _)| !known.contains(name)) {
            Some((name, _)) => Err(usage(&format!("{name} is no option here"))),
            None => Ok(()),
        }
    }

    pub fn option(&self, name: &str) -> Option<&'a str> {
        self.options.iter().rev().find(|(given, _)| *given == name).map(|(_, value)| *value)
    }

    pub fn number(&self, name: &str, otherwise: u64) -> Result<u64, Failure> {
        self.option(name).map_or(Ok(otherwise), |value| {
            value.parse().map_err(|_| usage(&format!("{name} wants a number, not {value}")))
        })
    }

    pub fn groups(&self) -> Result<Vec<&'static Group>, Failure> {
        let Some(names) = self.option("--groups") else {
            return Ok(GROUPS.iter().collect());
        };
        let group = |name| {
            let found = GROUPS.iter().find(|group| group.name == name);
            found.ok_or_else(|| usage(&format!("no group is called {name}")))
        };
        names.split(',').map(group).collect()
    }
}
