//! `vanillatarn install`: the command and the library in a folder. In the repository the script
//! `command/install.sh` does it, which builds what is needed.

use crate::home::Home;
use crate::options::Question;
use crate::output::{Ended, Stop};
use std::os::unix::process::CommandExt;
use std::process::Command;

pub fn answer(asked: &Question) -> Ended {
    match Home::find()? {
        Home::Installed(_) => {
            let words = "an installed command installs nothing: use the one of the repository";
            Err(asked.misused(words))
        }
        Home::Repository(root) => {
            let script = root.join("command").join("install.sh");
            let error = Command::new("bash").arg(script).arg(&asked.files[0]).exec();
            Err(Stop::broken(format!("command/install.sh: {error}")))
        }
    }
}
