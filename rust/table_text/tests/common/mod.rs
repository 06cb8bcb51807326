//! What several tests use.

use std::path::PathBuf;

/// The folder of stored tables.
pub fn corpus_folder() -> PathBuf {
    PathBuf::from(env!("CARGO_MANIFEST_DIR")).join("../../corpus")
}
