//! Seeds 1 to N, tried by some workers until all are or enough have failed.

use std::fs;
use std::io;
use std::panic;
use std::path::Path;
use std::sync::atomic::{AtomicU64, Ordering};
use std::thread;

use crate::survey::Survey;

const WORKERS: usize = 2;
/// A program that fails everywhere needs no hundred thousand files to show it.
pub const ENOUGH: u64 = 50;

pub struct Seeds {
    count: u64,
    /// The folder for what failed.
    kept: &'static str,
    next: AtomicU64,
    passed: AtomicU64,
    failed: AtomicU64,
}

impl Seeds {
    /// Empties the folder: what an earlier run kept would be taken for ours.
    pub fn new(count: u64, kept: &'static str) -> io::Result<Self> {
        if Path::new(kept).exists() {
            fs::remove_dir_all(kept)?;
        }
        fs::create_dir_all(kept)?;
        let none = || AtomicU64::new(0);
        Ok(Seeds { count, kept, next: AtomicU64::new(1), passed: none(), failed: none() })
    }

    /// Tries the seeds, and tells of each that failed why. A trial takes what it met into the
    /// survey.
    pub fn try_all(&self, trial: impl Fn(u64, &mut Survey) -> Result<(), String> + Sync) -> Survey {
        thread::scope(|scope| {
            let workers: Vec<_> = (0..WORKERS).map(|_| scope.spawn(|| self.work(&trial))).collect();
            let mut all = Survey::default();
            for worker in workers {
                match worker.join() {
                    Ok(survey) => all.join(survey),
                    Err(fault) => panic::resume_unwind(fault),
                }
            }
            all
        })
    }

    fn work(&self, trial: impl Fn(u64, &mut Survey) -> Result<(), String>) -> Survey {
        let mut survey = Survey::default();
        while self.failed() < ENOUGH {
            let seed = self.next.fetch_add(1, Ordering::Relaxed);
            if seed > self.count {
                break;
            }
            match trial(seed, &mut survey) {
                Ok(()) => self.passed.fetch_add(1, Ordering::Relaxed),
                Err(why) => {
                    println!("seed {seed} {why}");
                    self.failed.fetch_add(1, Ordering::Relaxed)
                }
            };
        }
        survey
    }

    /// Keeps something of a seed that failed.
    pub fn keep(&self, seed: u64, ending: &str, bytes: &[u8]) -> Result<(), String> {
        let path = format!("{}/seed-{seed}.{ending}", self.kept);
        fs::write(&path, bytes).map_err(|error| format!("{path} can't be kept: {error}"))
    }

    pub fn passed(&self) -> u64 {
        self.passed.load(Ordering::Relaxed)
    }

    pub fn failed(&self) -> u64 {
        self.failed.load(Ordering::Relaxed)
    }
}
