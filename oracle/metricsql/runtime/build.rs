//! Every step that is taken with the runtime's sources. They are read from METRICSQL_SRC, else from ../shared/docs/src beside
//! the repository; none is copied into it.
//!
//! Compiled where they lie, unchanged, by a `#[path]` line each:
//!   runtime/src/execution/binary/binop_vector_vector.rs, runtime/src/types/metric_name.rs,
//!   runtime/src/types/signature.rs, runtime/src/types/timeseries.rs, runtime/src/runtime_error.rs
//! Cut out, into the build folder:
//!   runtime/src/execution/utils.rs   `remove_empty_series`: from the line that begins `pub fn remove_empty_series` to the
//!                                    first line that is `}`.
//! No line of a file is altered. What else these files name (the crate's root names, `InstantVector`, the encoding of
//! strings, `parse_metric_selector`) is supplied in src/lib.rs.
use std::path::{Path, PathBuf};
use std::{env, fs};

include!("../source.rs");

fn main() {
    let source = source();
    let out = PathBuf::from(env::var_os("OUT_DIR").unwrap());
    for (module, file) in [
        ("binop_vector_vector", "runtime/src/execution/binary/binop_vector_vector.rs"),
        ("metric_name", "runtime/src/types/metric_name.rs"),
        ("signature", "runtime/src/types/signature.rs"),
        ("timeseries", "runtime/src/types/timeseries.rs"),
        ("runtime_error", "runtime/src/runtime_error.rs"),
    ] {
        let path = found(&source, file);
        fs::write(out.join(format!("{module}.rs")), format!("#[path = {path:?}]\npub mod {module};\n")).unwrap();
    }
    let text = fs::read_to_string(found(&source, "runtime/src/execution/utils.rs")).unwrap();
    let mut stretch = Vec::new();
    for line in text.lines().skip_while(|l| !l.starts_with("pub fn remove_empty_series")) {
        stretch.push(line);
        if line == "}" {
            break;
        }
    }
    assert!(stretch.last() == Some(&"}"), "utils.rs has no remove_empty_series");
    fs::write(out.join("utils.rs"), stretch.join("\n")).unwrap();
}
