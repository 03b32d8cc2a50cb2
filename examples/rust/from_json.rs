//! Writes a JSON text as YAML through the static library `yaml_c`, from Rust without the toolchain.
mod yaml_c;

use std::io::Write;
use yaml_c::Report;

/// How values are written: `struct yaml_c_value_settings`.
#[repr(C)]
#[derive(Default)]
struct ValueSettings {
    flow: u32,
    canonical: u32,
    ascii_only: u32,
    line_breaks_1_2: u32,
    allow_unportable: u32,
    compact_sequences: u32,
    quoted_blanks: u32,
    double_quotes: u32,
    indent: i32,
    width: i32,
    depth: usize,
}

/// How JSON is written: `struct yaml_c_json_settings`.
#[repr(C)]
#[derive(Default)]
struct Settings {
    values: ValueSettings,
    allow_duplicates: u32,
}

extern "C" {
    fn yaml_from_json(
        text: *const u8,
        text_len: usize,
        settings: *const Settings,
        out: *mut u8,
        out_capacity: usize,
        result: *mut Report,
    ) -> i32;
}

/// Makes a call, and returns its status and its results.
fn from_json_into(text: &str, settings: &Settings, out: &mut [u8]) -> (i32, Report) {
    let mut report = Report::default();
    // SAFETY: the pointers and lengths are those of slices that are borrowed for the call, and `report` is written.
    let status = unsafe {
        yaml_from_json(text.as_ptr(), text.len(), settings, out.as_mut_ptr(), out.len(), &mut report)
    };
    (status, report)
}

/// Returns the YAML of a JSON text, or the place of its error.
fn from_json(text: &str, settings: &Settings) -> Result<Vec<u8>, Report> {
    let (_, needed) = from_json_into(text, settings, &mut [0; 8]);
    let mut yaml = vec![0; needed.length];
    match from_json_into(text, settings, &mut yaml) {
        (0, _) => Ok(yaml),
        (_, report) => Err(report),
    }
}

fn main() {
    let text = r#"{"country": "no", "ports": [80, 1e9], "proxy": null}"#;
    let values = ValueSettings { flow: 1, width: -1, ..ValueSettings::default() };
    let in_flow = Settings { values, ..Settings::default() };
    for settings in [Settings::default(), in_flow] {
        if let Ok(yaml) = from_json(text, &settings) {
            std::io::stdout().write_all(&yaml).expect("standard output is open");
        }
    }
    if let Err(report) = from_json("{\n  \"a\": nul\n}", &Settings::default()) {
        println!("line {}, column {}: not JSON", report.line, report.column);
    }
}
