// Where metricsql's sources lie; included by both build scripts.

fn source() -> PathBuf {
    println!("cargo:rerun-if-env-changed=METRICSQL_SRC");
    match env::var_os("METRICSQL_SRC") {
        Some(path) => PathBuf::from(path),
        None => Path::new(env!("CARGO_MANIFEST_DIR")).join("../../../../shared/docs/src"),
    }
}

fn found(source: &Path, file: &str) -> PathBuf {
    let path = source.join(file);
    println!("cargo:rerun-if-changed={}", path.display());
    path.canonicalize()
        .unwrap_or_else(|e| panic!("{}: {e}; METRICSQL_SRC names the folder of metricsql's sources", path.display()))
}
