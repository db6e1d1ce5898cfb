//! Room for bodies: for how many bytes of them, and for how many that wait to be kept.

use crate::keeper::Refusal;
use crate::settings::Limits;
use std::future::Future;
use std::sync::Arc;
use std::time::Duration;
use tokio::sync::{OwnedSemaphorePermit, Semaphore};

pub struct Room {
    bytes: Arc<Semaphore>,
    bodies: Arc<Semaphore>,
    /// The most that one body takes of the bytes, or it would wait for ever.
    most: usize,
    wait: Duration,
}

fn kib(bytes: usize) -> usize {
    (bytes >> 10) + 1
}

impl Room {
    pub fn new(limits: &Limits) -> Room {
        let all = kib(limits.waiting_bytes);
        Room {
            bytes: Arc::new(Semaphore::new(all)),
            bodies: Arc::new(Semaphore::new(limits.waiting_bodies)),
            most: all.min(u32::MAX as usize),
            wait: Duration::from_millis(limits.waiting_ms),
        }
    }

    /// Room for so many bytes of a body beside those that it has already, or none in the time that a body waits.
    pub async fn bytes(&self, bytes: usize) -> Result<OwnedSemaphorePermit, Refusal> {
        let wanted = kib(bytes).min(self.most) as u32;
        self.in_time(self.bytes.clone().acquire_many_owned(wanted)).await
    }

    /// A place among the bodies that wait to be kept.
    pub async fn turn(&self) -> Result<OwnedSemaphorePermit, Refusal> {
        self.in_time(self.bodies.clone().acquire_owned()).await
    }

    async fn in_time<T, E>(&self, wanted: impl Future<Output = Result<T, E>>) -> Result<T, Refusal> {
        match tokio::time::timeout(self.wait, wanted).await {
            Ok(got) => got.map_err(|_| Refusal::Closing),
            Err(_) => Err(Refusal::Full),
        }
    }
}
