//! Work that is cut into jobs, which the cores take one by one.

use std::sync::atomic::{AtomicUsize, Ordering};

/// Does the jobs 0 to below `count` on as many threads as there are cores. The answers stand in the
/// order of the jobs, so nothing that is made of them depends on the threads.
pub fn on_all_cores<T: Send>(count: usize, job: impl Fn(usize) -> T + Sync) -> Vec<T> {
    let threads = std::thread::available_parallelism().map_or(1, usize::from);
    let next = AtomicUsize::new(0);
    let work = || {
        let mut done = Vec::new();
        loop {
            let number = next.fetch_add(1, Ordering::Relaxed);
            if number >= count {
                return done;
            }
            done.push((number, job(number)));
        }
    };
    let mut done: Vec<(usize, T)> = std::thread::scope(|scope| {
        let workers: Vec<_> = (0..threads).map(|_| scope.spawn(work)).collect();
        workers
            .into_iter()
            .flat_map(|worker| worker.join().expect("no panic"))
            .collect()
    });
    done.sort_by_key(|(number, _)| *number);
    done.into_iter().map(|(_, answer)| answer).collect()
}

#[cfg(test)]
mod tests {
    #[test]
    fn answers_stand_in_order() {
        let squares: Vec<usize> = (0..1000).map(|number| number * number).collect();
        assert_eq!(super::on_all_cores(1000, |number| number * number), squares);
    }
}
