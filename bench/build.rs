//! The port's static libraries are linked by u32-table-sys, from the folder U32_TABLE_LIB (default: target/staticlib of the repository). Where
//! EARLIER_LIB names the folder of another libu32_table.a, that is linked here too, with `earlier_` before its names.
use std::env;
use std::fs;
use std::path::PathBuf;
use std::process::Command;

const NAMES: [&str; 22] = [
    "record",
    "hold",
    "confirm",
    "drop",
    "compare",
    "plan",
    "read",
    "write",
    "fill",
    "pad",
    "extend",
    "check",
    "replay",
    "client_sum",
    "batches",
    "look_up",
    "byte_lookup",
    "cascade_lookup",
    "byte_sum",
    "cascade_sum",
    "archive",
    "restore",
];

/// The symbols of libraries in which record has other arguments, while extend and check have these: of lists with no holds, and with one recorder.
const WITHOUT_HOLDS: &str = "u32_table_abi_1";
const ONE_RECORDER: &str = "u32_table_abi_2";

fn main() {
    println!("cargo::rerun-if-env-changed=EARLIER_LIB");
    println!("cargo::rustc-check-cfg=cfg(earlier, without_holds, one_recorder)");
    if let Some(folder) = env::var_os("EARLIER_LIB") {
        let library = PathBuf::from(folder).join("libu32_table.a");
        let out = PathBuf::from(env::var_os("OUT_DIR").unwrap());
        let content = fs::read(&library).expect("the earlier library");
        let has = |symbol: &str| content.windows(symbol.len()).any(|name| name == symbol.as_bytes());
        if has(WITHOUT_HOLDS) {
            println!("cargo::rustc-cfg=without_holds");
        } else if has(ONE_RECORDER) {
            println!("cargo::rustc-cfg=one_recorder");
        } else {
            assert!(env::var("DEP_U32_TABLE_SYMBOL").is_ok_and(|symbol| has(&symbol)), "an earlier library of other signatures");
        }
        let names = NAMES.map(|name| format!("u32_table_{name}")).into_iter().chain(env::var("DEP_U32_TABLE_SYMBOL"));
        let names = names.map(|name| format!("--redefine-sym={name}=earlier_{name}"));
        let status = Command::new("objcopy").args(names).arg(&library).arg(out.join("libearlier.a")).status();
        assert!(status.is_ok_and(|status| status.success()), "objcopy");
        println!("cargo::rerun-if-changed={}", library.display());
        println!("cargo::rustc-link-search=native={}", out.display());
        println!("cargo::rustc-link-lib=static=earlier");
        println!("cargo::rustc-cfg=earlier");
    }
}
