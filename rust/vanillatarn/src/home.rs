//! Where the command stands: installed, or in the repository; and its version.

use crate::output::Stop;
use std::path::{Path, PathBuf};
use std::{env, fs};

const VERSION: &str = include_str!("../../../VERSION");

/// What stands around the binary.
pub enum Home {
    /// A folder with `bin/vanillatarn` and, in `libexec/vanillatarn`, what it needs.
    Installed(PathBuf),
    /// The root of the repository, with the binary somewhere below `rust/target`.
    Repository(PathBuf),
}

impl Home {
    /// By the place of the binary, so that the folder can be moved.
    pub fn find() -> Result<Home, Stop> {
        let binary = env::current_exe()
            .map_err(|error| Stop::broken(format!("the command's own place: {error}")))?;
        let parts = binary.ancestors().nth(2).map(PathBuf::from);
        let parts = parts.unwrap_or_default().join("libexec/vanillatarn");
        if parts.join("INSTALLED").exists() {
            return Ok(Home::Installed(parts));
        }
        let is_root = |folder: &&Path| folder.join("crates.txt").exists();
        match binary.ancestors().find(is_root) {
            Some(root) => Ok(Home::Repository(root.to_path_buf())),
            None => Err(Stop::broken(format!(
                "{} stands neither in a folder of `vanillatarn install` nor in the repository",
                binary.display()
            ))),
        }
    }

    /// The folder with the verified programs.
    pub fn programs(&self) -> PathBuf {
        match self {
            Home::Installed(parts) => parts.join("programs"),
            Home::Repository(root) => root.join("target").join("bin"),
        }
    }

    /// What is said of a program that is not there.
    pub fn missing(&self, program: &str) -> String {
        let (Home::Installed(root) | Home::Repository(root)) = self;
        let remedy = match self {
            Home::Installed(_) => "install vanillatarn once more",
            Home::Repository(_) => "./vanillatarn builds it",
        };
        format!("{program} is missing in {}: {remedy}", root.display())
    }
}

/// The version, and of which commit and by which rt it was made. In the repository the script
/// `vanillatarn` tells these.
pub fn version() -> Result<String, Stop> {
    let version = VERSION.trim_end();
    let origin = match Home::find()? {
        Home::Installed(parts) => fs::read_to_string(parts.join("INSTALLED"))
            .map_err(|_| Stop::broken("INSTALLED cannot be read"))?,
        Home::Repository(_) => "commit: unknown (asked without ./vanillatarn)\n".to_string(),
    };
    Ok(format!("vanillatarn {version}\n{origin}"))
}
