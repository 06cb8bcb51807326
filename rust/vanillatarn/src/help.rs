//! What `vanillatarn --help` and `vanillatarn COMMAND --help` say.

pub const GENERAL: &str = include_str!("help/general.txt");

/// The page of a command.
macro_rules! page {
    ($name:literal) => {
        include_str!(concat!("help/", $name, ".txt"))
    };
}
pub(crate) use page;

#[cfg(test)]
mod tests {
    use super::GENERAL;
    use crate::options::COMMANDS;

    #[test]
    fn pages_fit_a_terminal() {
        for page in COMMANDS.iter().map(|known| known.page).chain([GENERAL]) {
            for line in page.lines() {
                assert!(line.chars().count() <= 80, "{line}");
            }
        }
    }

    #[test]
    fn every_command_is_told() {
        for known in &COMMANDS {
            let (name, page) = (known.name, known.page);
            assert!(page.starts_with(&format!("usage: vanillatarn {name} ")));
            assert!(GENERAL.contains(&format!("\n  {name} ")), "{name}");
            for option in crate::options::of_command(name) {
                assert!(page.contains(option), "{name} {option}");
            }
        }
    }
}
