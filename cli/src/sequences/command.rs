//! The names in a hint's command, as it can be pasted into a shell.

use crate::say::quoted;
use std::path::Path;

/// What stands for the file in a hint's command, and what it writes to.
const FILE: &str = "FILE";
const NEW: &str = "NEW.fa";

/// The names that are put in their places.
pub struct Names {
    file: String,
    new: String,
}

impl Names {
    /// The file's own name, where a command can read the file as it is; and a
    /// new one's, which is not there: a shell would write over it.
    pub fn of(path: &Path, plain: bool) -> Names {
        let file = if plain {
            quoted(path)
        } else {
            FILE.to_string()
        };
        let there = |name: &String| Path::new(name).symlink_metadata().is_ok();
        let mut new = NEW.to_string();
        let mut number = 1;
        while there(&new) {
            number += 1;
            new = format!("NEW-{number}.fa");
        }
        Names { file, new }
    }

    /// A hint of ours with the names in it. Nothing else may stand in it yet
    /// that was not written here: a record can be called FILE too.
    pub fn put(&self, hint: &'static str) -> String {
        hint.replace(NEW, &self.new).replace(FILE, &self.file)
    }
}
