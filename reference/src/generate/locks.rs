//! Worlds whose sessions lock devices (request N6), and proposals about locks. The worlds are those with green zones,
//! so that these stay as they are for a seed.

use super::greens::greened;
use super::likely::Scene;
use super::rng::Rng;
use super::worlds::{Size, World};
use crate::operation::{Actor, Operation};
use crate::state::NONE;

/// A world of this size whose sessions lock and unlock devices.
pub fn locking(rng: &mut Rng, size: Size) -> World {
    World { locks: true, ..greened(rng, size) }
}

/// How often, in a hundred, a likely operation is about a lock.
const LOCKING: usize = 16;

fn lock(device: usize, locked: bool) -> Operation {
    Operation::Lock { actor: Actor::Device(device), locked }
}

impl Scene<'_> {
    /// The inactive devices that are locked, or those that are not.
    fn waiting(&self, locked: bool) -> Vec<usize> {
        let inactive = (1..=self.world.config.devices()).filter(|device| self.state.device(*device) == NONE);
        inactive.filter(|device| self.state.is_locked(*device) == locked).collect()
    }

    /// At times a device that is locked or unlocked, where sessions do that; or one that leaves, to be locked later.
    pub fn perhaps_lock(&mut self) -> Option<Operation> {
        if !self.world.locks || !self.rng.percent(LOCKING) {
            return None;
        }
        let locked = self.rng.percent(55);
        let waiting = self.waiting(!locked);
        match self.rng.pick(&waiting) {
            Some(device) => Some(lock(device, locked)),
            None => self.leave(Actor::Device).filter(|_| locked),
        }
    }

    /// Now and then a record of code 14 or 15 whose device is yet to be chosen.
    pub fn shape_of_lock(&mut self) -> Option<Operation> {
        (self.world.locks && self.rng.percent(12)).then(|| lock(1, self.rng.percent(50)))
    }

    /// Now and then an active device that is to be locked or unlocked.
    pub fn lock_of_active(&mut self) -> Option<Operation> {
        if !self.world.locks || !self.rng.percent(30) {
            return None;
        }
        self.active_device().map(|device| lock(device, self.rng.percent(50)))
    }

    /// Now and then a locked device that is brought into this partition.
    pub fn locked_into(&mut self, partition: usize) -> Option<Operation> {
        if !self.world.locks || !self.rng.percent(25) {
            return None;
        }
        let locked = self.waiting(true);
        self.rng.pick(&locked).map(|device| Operation::Activate { actor: Actor::Device(device), partition })
    }

    /// A locked device that is brought in or locked again, or one that is unlocked and has no lock.
    pub fn against_lock(&mut self) -> Operation {
        let (locked, unlocked) = (self.waiting(true), self.waiting(false));
        let partition = self.existing();
        let proposal = match self.rng.weighted(&[35, 45, 20]) {
            0 => {
                let device = self.rng.pick(&locked);
                device.map(|device| Operation::Activate { actor: Actor::Device(device), partition })
            }
            1 => self.rng.pick(&locked).map(|device| lock(device, true)),
            _ => None,
        };
        proposal
            .or_else(|| self.rng.pick(&unlocked).map(|device| lock(device, false)))
            .unwrap_or_else(|| self.anything())
    }
}
