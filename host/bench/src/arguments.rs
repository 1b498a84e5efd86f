//! The arguments that both benchmarks have: `--mib N` and `--reps N`.

pub struct Arguments {
    pub mib: usize,
    pub reps: usize,
}

/// The value behind an argument's name.
pub fn value(name: &str, value: Option<String>) -> Result<String, String> {
    value.ok_or(format!("{name} wants a value"))
}

/// The same where it is a number above 0.
pub fn number(name: &str, given: Option<String>) -> Result<usize, String> {
    let text = value(name, given)?;
    match text.parse() {
        Ok(number) if number > 0 => Ok(number),
        _ => Err(format!("{name} wants a number above 0, not {text}")),
    }
}

pub fn unknown<T>(name: &str) -> Result<T, String> {
    Err(format!("no argument {name}"))
}

impl Arguments {
    /// Takes one of the two and its value; false where the name is another one.
    pub fn take(
        &mut self,
        name: &str,
        rest: &mut dyn Iterator<Item = String>,
    ) -> Result<bool, String> {
        match name {
            "--mib" => self.mib = number(name, rest.next())?,
            "--reps" => self.reps = number(name, rest.next())?,
            _ => return Ok(false),
        }
        Ok(true)
    }
}

/// True where a name asks for help.
pub fn is_help(name: &str) -> bool {
    matches!(name, "--help" | "-h")
}
