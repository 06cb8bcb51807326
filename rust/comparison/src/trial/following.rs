//! Paths of a class, and runs of them.

use super::Trial;
use crate::bytes::hex;
use crate::difference::Outcome;
use crate::lists::Unlike;
use crate::runs::paths::{self, Path};
use crate::runs::Subject;
use demand::Demand;
use reference::network::Step;

impl Trial<'_> {
    /// The steps have to keep to the schedule, and the library's run of the choices
    /// to be a run of their path.
    pub fn follow(
        &mut self,
        subject: &Subject,
        demand: &Demand,
        steps: Vec<Step>,
        choices: Result<Vec<u8>, String>,
    ) -> Outcome {
        let told = format!("the choices of {steps:?}");
        let found = Path::new(subject, steps).and_then(|path| Ok((path, choices?)));
        let (path, choices) = match found {
            Ok(found) => found,
            Err(second) => {
                let library = "not asked".to_string();
                let unlike = Unlike { library, second };
                return Err(self.differs(&subject.bytes, told, unlike, None));
            }
        };
        match paths::compare(self.readers, subject, demand, &path, &choices) {
            Ok(ran) => {
                self.tally.paths.count(subject, &path, &ran);
                Ok(())
            }
            Err(broken) => {
                let call = format!("run along {:?}, with {}", path.steps, hex(&choices));
                Err(self.differs(&subject.bytes, call, broken.unlike, broken.demand))
            }
        }
    }
}
