//! Cuts the original's CRC, with all that it names, out of the file that `oracle/build.sh` laid out in `target/oracle`.

use std::env;
use std::fs;
use std::path::Path;

const FILE: &str = "../../target/oracle/src/output/dsdiff_dst.rs";

/// How each item's first line begins, and what its last line is; of an item of one line, how that ends.
const ITEMS: [(&str, &str); 3] =
    [("pub(super) fn crc(content: &[u8]) -> u32 {", "}"), ("const POLY: u32 =", ";"), ("const CRC_TABLE:", "};")];

fn main() {
    println!("cargo::rerun-if-changed=build.rs");
    println!("cargo::rerun-if-changed={FILE}");
    if let Err(message) = cut_out() {
        println!("cargo::error={message}");
    }
}

fn cut_out() -> Result<(), String> {
    let text = fs::read_to_string(FILE).map_err(|e| format!("the original's {FILE}: {e}"))?;
    let none = |first: &str| format!("the original's {FILE} has none or several items `{first} ..`");
    let items = ITEMS.map(|(first, last)| item(&text, first, last).ok_or_else(|| none(first)));
    let items = items.into_iter().collect::<Result<String, _>>()?;
    let folder = env::var_os("OUT_DIR").ok_or("cargo gives no OUT_DIR")?;
    fs::write(Path::new(&folder).join("crc.rs"), items).map_err(|e| format!("crc.rs: {e}"))
}

/// The lines of the one item that begins so, unchanged.
fn item(text: &str, first: &str, last: &str) -> Option<String> {
    let mut starts = text.lines().enumerate().filter(|(_, line)| line.starts_with(first));
    let ((start, line), None) = (starts.next()?, starts.next()) else { return None };
    let more = if line.ends_with(last) { 0 } else { text.lines().skip(start).position(|line| line == last)? };
    Some(text.lines().skip(start).take(more + 1).map(|line| format!("{line}\n")).collect())
}
