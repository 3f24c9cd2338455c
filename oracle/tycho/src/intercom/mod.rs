//! stateless.rs is the source's; nothing is downloaded.

pub mod peer_schedule;

use std::rc::Rc;

pub use peer_schedule::stateless::PeerScheduleStateless;

#[derive(Clone)]
pub struct PeerSchedule(Rc<PeerScheduleStateless>);

impl PeerSchedule {
    pub fn new(stateless: Rc<PeerScheduleStateless>) -> Self {
        Self(stateless)
    }

    pub fn atomic(&self) -> Rc<PeerScheduleStateless> {
        self.0.clone()
    }
}

#[derive(Clone)]
pub struct Downloader(pub PeerSchedule);

impl Downloader {
    pub fn peer_schedule(&self) -> &PeerSchedule {
        &self.0
    }
}
