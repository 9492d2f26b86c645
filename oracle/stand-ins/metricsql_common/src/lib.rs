//! Stand-in for metricsql_common: its one part used here, the hasher of label signatures.
pub mod hash {
    pub use ahash::FramedHasher as FastHasher;
}
