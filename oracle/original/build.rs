//! Build script of triton-isa, triton-air and triton-vm. The original's files are compiled unchanged: each file of
//! the crate that `checksums` names must have its checksum there. Copies of them, and of our stand-ins in the crate's own `src`,
//! are laid side by side in OUT_DIR/src, so that the modules find each other as they do in the original's folder. They are no links, since
//! `rt ci` refuses links anywhere in the repository.
//!
//! TRITON_SRC: the folder of the original (default: ../shared/docs/src beside the repository).
//! TRITON_UNCHECKED: if set, checksums are not compared. For `mutate` only.
use std::env;
use std::fs;
use std::path::{Path, PathBuf};

fn main() {
    println!("cargo::rerun-if-env-changed=TRITON_SRC");
    println!("cargo::rerun-if-env-changed=TRITON_UNCHECKED");

    let krate = PathBuf::from(env::var_os("CARGO_MANIFEST_DIR").unwrap());
    let oracle = krate.ancestors().nth(2).unwrap();
    let repository = oracle.parent().unwrap();
    let original = match env::var_os("TRITON_SRC") {
        Some(folder) => PathBuf::from(folder),
        None => repository.join("../shared/docs/src"),
    };
    if !original.is_dir() {
        fail(format!(
            "the original's source folder is not there: {}\nSet TRITON_SRC to the folder that holds triton-air, triton-isa and triton-vm.",
            original.display()
        ));
    }
    let original = original.canonicalize().unwrap();

    let out = PathBuf::from(env::var_os("OUT_DIR").unwrap());
    let sources = out.join("src");
    let _ = fs::remove_dir_all(&sources);

    let is_checked = env::var_os("TRITON_UNCHECKED").is_none();
    if !is_checked {
        println!("cargo::warning=TRITON_UNCHECKED: the original's files in {} are NOT checked", original.display());
    }
    let checksums = oracle.join("checksums");
    println!("cargo::rerun-if-changed={}", checksums.display());
    let ours = env::var("CARGO_PKG_NAME").unwrap() + "/src/";
    for line in fs::read_to_string(&checksums).unwrap().lines() {
        let (checksum, name) = line.split_once("  ").expect("checksums: a line of `sha256sum`");
        let Some(file) = name.strip_prefix(&ours) else { continue };
        let path = original.join(name);
        println!("cargo::rerun-if-changed={}", path.display());
        let content = fs::read(&path).unwrap_or_else(|error| fail(format!("cannot read {}: {error}", path.display())));
        let found = sha256(&content);
        if is_checked && found != checksum {
            fail(format!(
                "{} is not the file this oracle was made for\n  sha256 expected: {checksum}\n  sha256 found:    {found}",
                path.display()
            ));
        }
        lay(&path, &sources.join(file));
    }
    lay_all(&krate.join("src"), &sources);

    let root = format!("#[path = {:?}]\nmod root;\n", sources.join("lib.rs"));
    fs::write(out.join("root.rs"), root).unwrap();
}

fn fail(message: String) -> ! {
    eprintln!("\noracle: {message}\n");
    std::process::exit(1)
}

fn lay(file: &Path, to: &Path) {
    fs::create_dir_all(to.parent().unwrap()).unwrap();
    fs::copy(file, to).unwrap_or_else(|error| fail(format!("cannot copy to {}: {error}", to.display())));
}

/// Every file in the folder and below.
fn lay_all(folder: &Path, to: &Path) {
    println!("cargo::rerun-if-changed={}", folder.display());
    for entry in fs::read_dir(folder).unwrap() {
        let path = entry.unwrap().path();
        let to = to.join(path.file_name().unwrap());
        if path.is_dir() { lay_all(&path, &to) } else { lay(&path, &to) }
    }
}

/// SHA-256 (FIPS 180-4), in hexadecimal.
fn sha256(message: &[u8]) -> String {
    // The fractional parts of the square roots (cube roots) of the first primes: 32 bits, rounded down.
    let primes: Vec<u128> = (2..312).filter(|n| (2..*n).all(|d| n % d != 0)).collect();
    let root = |n: u128, power: u32| {
        // The largest r with r^power <= n * 2^(32 * power).
        let n = n << (32 * power);
        (0..36).rev().fold(0u128, |r, bit| if (r | 1 << bit).pow(power) <= n { r | 1 << bit } else { r }) as u32
    };
    let mut state: Vec<u32> = primes[..8].iter().map(|&prime| root(prime, 2)).collect();
    let constants: Vec<u32> = primes[..64].iter().map(|&prime| root(prime, 3)).collect();

    let mut padded = message.to_vec();
    padded.push(0x80);
    while padded.len() % 64 != 56 {
        padded.push(0);
    }
    padded.extend((message.len() as u64 * 8).to_be_bytes());

    for block in padded.chunks(64) {
        let mut words: Vec<u32> = block.chunks(4).map(|bytes| u32::from_be_bytes(bytes.try_into().unwrap())).collect();
        for i in 16..64 {
            let (w2, w15) = (words[i - 2], words[i - 15]);
            let s0 = w15.rotate_right(7) ^ w15.rotate_right(18) ^ (w15 >> 3);
            let s1 = w2.rotate_right(17) ^ w2.rotate_right(19) ^ (w2 >> 10);
            words.push(words[i - 16].wrapping_add(s0).wrapping_add(words[i - 7]).wrapping_add(s1));
        }
        let mut v = state.clone();
        for (word, constant) in words.iter().zip(&constants) {
            let s1 = v[4].rotate_right(6) ^ v[4].rotate_right(11) ^ v[4].rotate_right(25);
            let choice = (v[4] & v[5]) ^ (!v[4] & v[6]);
            let t1 = [s1, choice, *constant, *word].iter().fold(v[7], |sum, x| sum.wrapping_add(*x));
            let s0 = v[0].rotate_right(2) ^ v[0].rotate_right(13) ^ v[0].rotate_right(22);
            let majority = (v[0] & v[1]) ^ (v[0] & v[2]) ^ (v[1] & v[2]);
            v.rotate_right(1);
            v[4] = v[4].wrapping_add(t1);
            v[0] = t1.wrapping_add(s0).wrapping_add(majority);
        }
        state.iter_mut().zip(v).for_each(|(s, v)| *s = s.wrapping_add(v));
    }
    state.iter().map(|word| format!("{word:08x}")).collect()
}
