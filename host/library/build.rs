//! Links the static library that the environment variable JANGQERUZ_LIBRARY names; without it, the one that
//! host/library/archive.sh writes into `target` of the repository.

use std::env;
use std::path::{Path, PathBuf};

const WRITTEN: &str = "target/staticlib/libabi.a";

fn main() {
    println!("cargo::rerun-if-changed=build.rs");
    println!("cargo::rerun-if-env-changed=JANGQERUZ_LIBRARY");
    if let Err(message) = link() {
        println!("cargo::error={message}");
    }
}

fn link() -> Result<(), String> {
    let library = library()?;
    let (Some(folder), Some(name)) = (library.parent(), library.file_name()) else {
        return Err(format!("{} is no file", library.display()));
    };
    println!("cargo::rerun-if-changed={}", library.display());
    println!("cargo::rustc-link-search=native={}", folder.display());
    println!("cargo::rustc-link-lib=static:+verbatim={}", name.to_string_lossy());
    Ok(())
}

fn library() -> Result<PathBuf, String> {
    if let Some(named) = env::var_os("JANGQERUZ_LIBRARY").filter(|name| !name.is_empty()) {
        let path = PathBuf::from(named);
        return match (path.is_absolute(), path.is_file()) {
            (true, true) => Ok(path),
            (true, false) => Err(format!("JANGQERUZ_LIBRARY: {}: no such file", path.display())),
            (false, _) => Err("JANGQERUZ_LIBRARY must name the static library by its full path".into()),
        };
    }
    let crate_folder = env::var_os("CARGO_MANIFEST_DIR").ok_or("cargo gives no CARGO_MANIFEST_DIR")?;
    let root =
        Path::new(&crate_folder).ancestors().nth(2).ok_or("this crate is not in host/library of the repository")?;
    let path = root.join(WRITTEN);
    match path.is_file() {
        true => Ok(path),
        false => Err(format!("no {}: run host/library/archive.sh, or set JANGQERUZ_LIBRARY", path.display())),
    }
}
