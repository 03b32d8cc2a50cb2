//! Writes the YAML of a script of events through the static library `yaml_c`, from Rust without the toolchain.
mod yaml_c;

use std::io::Write;
use yaml_c::Report;

extern "C" {
    fn yaml_run(
        script: *const u8,
        script_len: usize,
        out: *mut u8,
        out_capacity: usize,
        result: *mut Report,
    ) -> i32;
}

/// Why a script has no YAML.
#[derive(Debug, PartialEq)]
enum RunError {
    /// The event of this line is refused.
    Refused(u64),
    /// This line is no line of a script.
    BadLine(u64),
    NoMemory,
}

/// Makes a call; returns `Ok(Err(needed))` if the buffer has less room than is needed.
fn run_into(script: &str, out: &mut [u8]) -> Result<Result<usize, usize>, RunError> {
    let mut report = Report::default();
    // SAFETY: the pointers and lengths are those of slices that are borrowed for the call, and `report` is written.
    let status = unsafe {
        yaml_run(script.as_ptr(), script.len(), out.as_mut_ptr(), out.len(), &mut report)
    };
    match status {
        0 => Ok(Ok(report.length)),
        1 => Err(RunError::Refused(report.line)),
        2 => Err(RunError::BadLine(report.line)),
        4 => Ok(Err(report.length)),
        _ => Err(RunError::NoMemory),
    }
}

/// The YAML of a script.
fn run(script: &str) -> Result<Vec<u8>, RunError> {
    let mut yaml = vec![0; 8];
    loop {
        match run_into(script, &mut yaml)? {
            Ok(len) => {
                yaml.truncate(len);
                return Ok(yaml);
            }
            Err(needed) => {
                println!("{needed} bytes");
                yaml.resize(needed, 0);
            }
        }
    }
}

fn main() -> Result<(), RunError> {
    let script = r#"portable on
+STR any
+DOC 1 -
+SEQ block 1 - -
=VAL any 1 1 - - "one"
=VAL double 1 1 - - "two\n"
-SEQ
-DOC 1
-STR
"#;
    let yaml = run(script)?;
    std::io::stdout().write_all(&yaml).expect("standard output is open");
    if let Err(RunError::BadLine(line)) = run("+STR any\n+STR\n") {
        println!("line {line} can't be read");
    }
    if let Err(RunError::Refused(line)) = run("+STR any\n-DOC 1\n") {
        println!("the event of line {line} is refused");
    }
    Ok(())
}
