//! Every step that is taken with the parser's sources. They are read from METRICSQL_SRC, else from ../shared/docs/src beside
//! the repository; none is copied into it.
//!
//! Compiled where they lie, unchanged, by a `#[path]` line each:
//!   parser/src/ast/operator.rs, parser/src/binaryop/mod.rs, parser/src/label/labels.rs
//! Cut out, into the build folder:
//!   parser/src/ast/expr.rs   from the line that begins `/// Matching Modifier, for VectorMatching` up to, not including,
//!                            the line that begins `/// Expression Trait.`: the modifier types. The file's own `use` lines
//!                            lie before the stretch; the module around it (src/lib.rs, `ast::expr`) has the few it needs.
//! No line of a file is altered. What else these files name (`parser::ParseError`, `tokens::Token`, `LabelFilterOp`,
//! two functions used by `Display` and `PartialEq`) is supplied in src/lib.rs.
use std::path::{Path, PathBuf};
use std::{env, fs};

include!("../source.rs");

fn main() {
    let source = source();
    let out = PathBuf::from(env::var_os("OUT_DIR").unwrap());
    for (module, file) in [
        ("operator", "parser/src/ast/operator.rs"),
        ("binaryop", "parser/src/binaryop/mod.rs"),
        ("labels", "parser/src/label/labels.rs"),
    ] {
        let path = found(&source, file);
        fs::write(out.join(format!("{module}.rs")), format!("#[path = {path:?}]\npub mod {module};\n")).unwrap();
    }
    let text = fs::read_to_string(found(&source, "parser/src/ast/expr.rs")).unwrap();
    let stretch: Vec<&str> = text
        .lines()
        .skip_while(|l| !l.starts_with("/// Matching Modifier, for VectorMatching"))
        .take_while(|l| !l.starts_with("/// Expression Trait."))
        .collect();
    assert!(!stretch.is_empty(), "expr.rs has no stretch of modifier types");
    fs::write(out.join("expr.rs"), stretch.join("\n")).unwrap();
}
