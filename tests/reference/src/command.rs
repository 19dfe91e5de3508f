//! A program as an option names it: a command and its words, parted by spaces.

use std::path::Path;
use std::process::{Command, Stdio};

/// The command, with pipes to and from it.
pub fn command(line: &str) -> Command {
    let mut words = line.split(' ');
    let mut command = Command::new(words.next().unwrap_or_default());
    command.args(words).stdin(Stdio::piped()).stdout(Stdio::piped());
    command
}

/// True where the first word is a file.
pub fn is_there(line: &str) -> bool {
    line.split(' ').next().is_some_and(|program| Path::new(program).is_file())
}
