//! Work on some things at a time.

use std::collections::BTreeMap;
use std::sync::atomic::{AtomicUsize, Ordering};
use std::sync::mpsc;

/// How many are worked on at a time: as the variable CORPUS_WORKERS says, or 4.
fn workers() -> usize {
    let said = std::env::var("CORPUS_WORKERS").ok();
    said.and_then(|number| number.parse().ok()).unwrap_or(4)
}

/// Works on all of some things, and takes what comes of them in their order.
pub fn each<Thing: Sync, Done: Send>(
    things: &[Thing],
    work: impl Fn(&Thing) -> Done + Sync,
    mut take: impl FnMut(&Thing, Done),
) {
    let (next, (send, receive)) = (AtomicUsize::new(0), mpsc::sync_channel(workers()));
    std::thread::scope(|scope| {
        for _ in 0..workers() {
            let (send, next, work) = (send.clone(), &next, &work);
            scope.spawn(move || loop {
                let at = next.fetch_add(1, Ordering::Relaxed);
                let Some(done) = things.get(at).map(work) else {
                    return;
                };
                if send.send((at, done)).is_err() {
                    return;
                }
            });
        }
        drop(send);
        let (mut early, mut wanted) = (BTreeMap::new(), 0);
        for (at, done) in receive {
            early.insert(at, done);
            while let Some(done) = early.remove(&wanted) {
                take(&things[wanted], done);
                wanted += 1;
            }
        }
    });
}
