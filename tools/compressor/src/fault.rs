//! What ends a run: its words, and its status.

use std::fmt;

#[derive(Clone, Debug, PartialEq, Eq)]
pub enum Fault {
    /// The words of the command line.
    Words(String),
    /// A file, the place in it, and the name of the fault.
    Input { file: String, place: String, name: &'static str },
    /// A file that can't be written.
    Output(String),
}

impl Fault {
    pub fn input(file: &str, place: String, name: &'static str) -> Fault {
        Fault::Input { file: file.to_string(), place, name }
    }

    pub fn status(&self) -> u8 {
        match self {
            Fault::Words(_) => 2,
            _ => 4,
        }
    }
}

impl fmt::Display for Fault {
    fn fmt(&self, to: &mut fmt::Formatter) -> fmt::Result {
        match self {
            Fault::Words(said) => write!(to, "command line: {said}"),
            Fault::Input { file, place, name } => write!(to, "{file}: {place}: {name}"),
            Fault::Output(file) => write!(to, "{file}: NotWritten"),
        }
    }
}

/// The octets of a file.
pub fn read(file: &str) -> Result<Vec<u8>, Fault> {
    std::fs::read(file).map_err(|_| Fault::input(file, "whole file".to_string(), "Unreadable"))
}

/// The lines of a file.
pub fn lines(file: &str) -> Result<Vec<String>, Fault> {
    let text = String::from_utf8(read(file)?);
    let text = text.map_err(|_| Fault::input(file, "whole file".to_string(), "NotText"))?;
    Ok(text.lines().map(str::to_string).collect())
}

/// Writes a file, or standard output if its name is `-`.
pub fn write(file: &str, octets: &[u8]) -> Result<(), Fault> {
    use std::io::Write;
    let written = match file {
        "-" => std::io::stdout().write_all(octets).and_then(|()| std::io::stdout().flush()),
        _ => std::fs::write(file, octets),
    };
    written.map_err(|_| Fault::Output(file.to_string()))
}
