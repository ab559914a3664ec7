//! A template as an operator writes it: runs of N with the gap ranges between
//! them. What numbers it may have is for the library to say.

mod habits;
mod motif;
mod read;
mod spelled;

use crate::failure::Answer;
use library::limits;
use std::fmt::Write;
use std::ops::Range;

/// A component: its letters, the gap range before it, and where both stand in
/// the text.
#[derive(Clone, Debug, PartialEq, Eq)]
pub struct Component {
    pub length: u64,
    pub low: u64,
    pub high: u64,
    pub allowance: u64,
    /// Its run of N.
    pub run: Range<usize>,
    /// The range before it, brackets and all; empty at the first.
    pub gap: Range<usize>,
}

/// A template, which asks for an exact search or a mixed one.
#[derive(Clone, Debug, PartialEq, Eq)]
pub struct Template {
    pub text: String,
    pub mixed: bool,
    pub components: Vec<Component>,
    shape: Vec<u16>,
    allowances: Vec<u16>,
    /// What stands before each component in a motif's text.
    ranges: Vec<String>,
}

/// A number as the library takes it. One that does not fit is above every
/// limit, and so is what it is cut to.
fn fit(number: u64) -> u16 {
    u16::try_from(number).unwrap_or(u16::MAX)
}

impl Template {
    /// Reads a template, and the allowances of a mixed search where there are
    /// any: one for each component, or one for all of them.
    pub fn read(text: &str, mixed: Option<&str>) -> Answer<Template> {
        let mut components =
            read::components(text).map_err(|failure| habits::told(text, failure))?;
        if let Some(mixed) = mixed {
            read::allow(&mut components, mixed)?;
        }
        Ok(Template::made(
            text.to_string(),
            mixed.is_some(),
            components,
        ))
    }

    fn made(text: String, mixed: bool, components: Vec<Component>) -> Template {
        let shape = components
            .iter()
            .flat_map(|c| [fit(c.length), fit(c.low), fit(c.high)])
            .collect();
        let allowances = components.iter().map(|c| fit(c.allowance)).collect();
        let range = |c: &Component| format!("[{},{}]", c.low, c.high);
        let ranges = std::iter::once(String::new())
            .chain(components.iter().skip(1).map(range))
            .collect();
        Template {
            text,
            mixed,
            components,
            shape,
            allowances,
            ranges,
        }
    }

    /// The template of a search that the library restored.
    pub fn restored(search: &library::Search, shape: &[u16], allowances: &[u16]) -> Template {
        let mut text = String::new();
        let mut components = Vec::new();
        for i in 0..usize::from(search.components) {
            let (length, low, high) = (shape[3 * i], shape[3 * i + 1], shape[3 * i + 2]);
            let start = text.len();
            if i > 0 {
                // To write to memory does not fail.
                let _ = write!(text, "[{low},{high}]");
            }
            let gap = start..text.len();
            text.push_str(&"N".repeat(length.into()));
            components.push(Component {
                length: length.into(),
                low: low.into(),
                high: high.into(),
                allowance: allowances[i].into(),
                run: gap.end..text.len(),
                gap,
            });
        }
        Template::made(text, search.profile == limits::MIXED, components)
    }

    /// As the library takes it.
    pub fn lent(&self) -> library::Template<'_> {
        library::Template {
            profile: if self.mixed {
                limits::MIXED
            } else {
                limits::EXACT
            },
            components: fit(self.components.len() as u64),
            shape: &self.shape,
            allowances: &self.allowances,
        }
    }

    /// The letters of a motif in all.
    pub fn letters(&self) -> u64 {
        self.components.iter().map(|c| c.length).sum()
    }

    /// The allowances, or `no` of an exact search.
    pub fn mixed_or_no(&self) -> String {
        if self.mixed {
            self.allowances()
        } else {
            "no".to_string()
        }
    }

    /// The allowances, as `--mixed` takes them.
    pub fn allowances(&self) -> String {
        let each: Vec<String> = self
            .components
            .iter()
            .map(|c| c.allowance.to_string())
            .collect();
        each.join(",")
    }
}
