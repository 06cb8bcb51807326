//! The works of a run, in the order in which they were finished.

use crate::Follower;

/// A finished work.
#[derive(Clone, Copy, Debug, PartialEq, Eq)]
pub struct Work {
    /// The node that finished it, of a message the sender.
    pub node: u8,
    /// When.
    pub tick: u32,
    /// Of a message the receiver and the channel.
    pub message: Option<(u8, u8)>,
}

/// The works so far, at common ticks.
#[derive(Clone, Debug, Default)]
pub(crate) struct Log {
    pub(crate) works: Vec<Work>,
    tick: u32,
}

impl Log {
    fn put(&mut self, node: u8, message: Option<(u8, u8)>) -> Result<(), String> {
        let tick = self.tick;
        self.works.push(Work {
            node,
            tick,
            message,
        });
        Ok(())
    }
}

impl Follower for Log {
    fn tick(&mut self) -> Result<(), String> {
        self.tick += 1;
        Ok(())
    }

    fn alone(&mut self, node: u8) -> Result<(), String> {
        self.put(node, None)
    }

    fn joint(&mut self, sender: u8, receiver: u8, channel: u8) -> Result<(), String> {
        self.put(sender, Some((receiver, channel)))
    }
}
