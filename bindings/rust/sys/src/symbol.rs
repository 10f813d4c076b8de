// The symbol that ties this crate to a library of the same signatures. Its number is raised whenever a signature changes: here, in
// crates/u32_table and in include/u32_table.h.
macro_rules! symbol {
    () => {
        "u32_table_abi_3"
    };
}
