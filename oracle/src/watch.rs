//! Tells of a call that does not return.

use std::process;
use std::sync::Arc;
use std::sync::atomic::{AtomicU64, Ordering};
use std::thread;
use std::time::Duration;

/// Ends the program if a round takes longer than this.
const PATIENCE: Duration = Duration::from_secs(120);

pub struct Watch(Arc<AtomicU64>);

impl Watch {
    pub fn start() -> Self {
        let now = Arc::new(AtomicU64::new(0));
        let seen = Arc::clone(&now);
        thread::spawn(move || {
            loop {
                let before = seen.load(Ordering::Relaxed);
                thread::sleep(PATIENCE);
                if seen.load(Ordering::Relaxed) == before {
                    eprintln!("a call of round {before} has not returned in {} seconds", PATIENCE.as_secs());
                    process::exit(1);
                }
            }
        });
        Watch(now)
    }

    /// Marks the start of a round.
    pub fn round(&self, number: u64) {
        self.0.store(number, Ordering::Relaxed);
    }
}
