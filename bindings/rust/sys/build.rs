//! Finds the static library that `tools/build u32_table` writes: in the folder U32_TABLE_LIB, or in target/staticlib of this repository. What
//! cannot be built ends with one sentence.
use std::env;
use std::fs;
use std::path::{Path, PathBuf};
use std::process::exit;

include!("src/symbol.rs");

fn main() {
    println!("cargo:rerun-if-env-changed=U32_TABLE_LIB");
    println!("cargo:rerun-if-changed=build.rs");
    println!("cargo:rerun-if-changed=src/symbol.rs");
    if let Err(sentence) = link() {
        eprintln!("{sentence}");
        exit(1);
    }
}

fn link() -> Result<(), String> {
    let variable = |name: &str| env::var(name).unwrap_or_default();
    let is_linux = variable("CARGO_CFG_TARGET_OS") == "linux" && variable("CARGO_CFG_TARGET_POINTER_WIDTH") == "64";
    if !is_linux || variable("CARGO_CFG_TARGET_ARCH") != "x86_64" {
        return Err(format!("u32-table is for x86-64 Linux, and this build is for {}.", variable("TARGET")));
    }
    let folder = folder()?;
    let named = folder.to_str().ok_or_else(|| format!("The path {} is not UTF-8.", folder.display()))?;
    library(&folder, "u32_table", symbol!())?;
    if env::var_os("CARGO_FEATURE_PROBES").is_some() {
        library(&folder, "probes", "probe_products")?;
    }
    println!("cargo:rustc-link-search=native={named}");
    // for the build scripts of crates that stand on this one: DEP_U32_TABLE_SYMBOL
    println!("cargo:symbol={}", symbol!());
    Ok(())
}

/// The folder that U32_TABLE_LIB names, or target/staticlib of the repository.
fn folder() -> Result<PathBuf, String> {
    let Some(given) = env::var_os("U32_TABLE_LIB").filter(|given| !given.is_empty()).map(PathBuf::from) else {
        let here = env::var_os("CARGO_MANIFEST_DIR").map(PathBuf::from).unwrap_or_default();
        return Ok(here.ancestors().nth(3).unwrap_or(&here).join("target/staticlib"));
    };
    if given.is_relative() {
        return Err(format!("U32_TABLE_LIB is {}, and it has to be a whole path, from / on.", given.display()));
    }
    if !given.is_dir() {
        return Err(format!("U32_TABLE_LIB is {}, and there is no such folder.", given.display()));
    }
    Ok(given)
}

/// The library is there, and has a symbol.
fn library(folder: &Path, name: &str, symbol: &str) -> Result<(), String> {
    let file = folder.join(format!("lib{name}.a"));
    println!("cargo:rerun-if-changed={}", file.display());
    if !file.is_file() {
        return Err(format!(
            "There is no {}: run `tools/build {name}` in the repository, or set U32_TABLE_LIB to the folder that has lib{name}.a.",
            file.display()
        ));
    }
    let bytes = fs::read(&file).map_err(|error| format!("{} cannot be read: {error}.", file.display()))?;
    if !symbols(&bytes).is_some_and(|names| names.split(|&byte| byte == 0).any(|name| name == symbol.as_bytes())) {
        return Err(format!(
            "{} is not the library that this crate declares, since it has no symbol {symbol}: build it anew with `tools/build {name}`.",
            file.display()
        ));
    }
    println!("cargo:rustc-link-lib=static={name}");
    Ok(())
}

/// The names in an archive's index, each ended by a zero byte: the first member, after its count and as many places of four bytes.
fn symbols(archive: &[u8]) -> Option<&[u8]> {
    let member = archive.strip_prefix(b"!<arch>\n")?;
    let (header, content) = (member.get(..60)?, member.get(60..)?);
    let size: usize = std::str::from_utf8(header.get(48..58)?).ok()?.trim_end().parse().ok()?;
    let index = content.get(..size).filter(|_| header.starts_with(b"/ "))?;
    let count = u32::from_be_bytes(index.get(..4)?.try_into().ok()?) as usize;
    index.get(count.checked_mul(4)?.checked_add(4)?..)
}
