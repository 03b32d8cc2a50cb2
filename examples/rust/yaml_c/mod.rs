//! What the examples share of the static library `yaml_c`, whose header is `crates/yaml_c/include/yaml_c.h`.

/// What a call came to: `struct yaml_c_result`.
#[repr(C)]
#[derive(Default)]
pub struct Report {
    pub length: usize,
    pub event: u64,
    pub line: u64,
    pub column: u64,
    pub error: u32,
}
