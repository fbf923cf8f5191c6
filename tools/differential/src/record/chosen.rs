//! The list of the drawn builds that are recorded: a seed, and the numbers of its cases. A later recording can be given it,
//! so that it has the same builds though their records became shorter or longer.

use std::fs;
use std::path::Path;

const ABOUT: &str = "# The drawn builds in crates/vectors/data/answers: the seed, and the numbers of its cases.";
/// So many numbers stand in a line.
const IN_A_LINE: usize = 20;

/// The numbers of a list of this seed.
pub fn read(file: &Path, seed: u64) -> Result<Vec<u64>, String> {
    let text = fs::read_to_string(file).map_err(|e| format!("{}: {e}", file.display()))?;
    let lines: Vec<&str> = text.lines().filter(|line| !line.starts_with('#')).collect();
    let wrong = || format!("{}: no list of builds of the seed {seed}", file.display());
    let (first, rest) = lines.split_first().ok_or_else(wrong)?;
    if *first != format!("seed {seed}") {
        return Err(wrong());
    }
    rest.iter().flat_map(|line| line.split_whitespace()).map(|word| word.parse().map_err(|_| wrong())).collect()
}

pub fn write(file: &Path, seed: u64, numbers: &[u64]) -> Result<(), String> {
    let mut lines = vec![ABOUT.to_owned(), format!("seed {seed}")];
    for part in numbers.chunks(IN_A_LINE) {
        lines.push(part.iter().map(u64::to_string).collect::<Vec<_>>().join(" "));
    }
    lines.push(String::new());
    fs::write(file, lines.join("\n")).map_err(|e| format!("{}: {e}", file.display()))
}
