//! Compares library and plain Rust on the same work, and then times them on it.

use std::fmt::Debug;
use std::hint::black_box;
use std::time::Instant;

/// What the calls of a batch are handed: each work, a buffer of its own that is filled
/// anew before each repetition, and a buffer for all, which is cleared.
pub struct Batch<'a, W> {
    works: &'a [W],
    filled: Vec<Vec<u8>>,
    shared: usize,
}

impl<'a, W> Batch<'a, W> {
    /// With what fills a work's buffer, and the length of the buffer for all.
    pub fn new(works: &'a [W], fill: impl Fn(&W) -> Vec<u8>, shared: usize) -> Batch<'a, W> {
        Batch { works, filled: works.iter().map(fill).collect(), shared }
    }

    /// The seconds that the calls of all works take together with the library and with plain
    /// Rust: the best of the repetitions, each of which times one after the other. An error
    /// if one answers or leaves other bytes than the other.
    pub fn best_times<A: Debug + PartialEq>(
        &self,
        repetitions: usize,
        library: impl Fn(&W, &mut [u8], &mut [u8]) -> A,
        plain: impl Fn(&W, &mut [u8], &mut [u8]) -> A,
    ) -> Result<[f64; 2], String> {
        let both = self.answers(&library).zip(self.answers(&plain));
        for (place, (one, other)) in both.enumerate() {
            if one != other {
                let (one, other) = (one.0, other.0);
                return Err(format!("work {place}: the library answers {one:?}, plain Rust {other:?}, or other bytes"));
            }
        }
        let mut lent = (self.filled.clone(), vec![0; self.shared]);
        let mut best = [f64::INFINITY; 2];
        for _ in 0..repetitions {
            best[0] = best[0].min(self.time(&mut lent, &library));
            best[1] = best[1].min(self.time(&mut lent, &plain));
        }
        Ok(best)
    }

    /// What is answered for each work, and both buffers afterwards.
    fn answers<'b, A>(
        &'b self,
        call: impl Fn(&W, &mut [u8], &mut [u8]) -> A + 'b,
    ) -> impl Iterator<Item = (A, Vec<u8>, Vec<u8>)> + 'b {
        self.works.iter().zip(&self.filled).map(move |(work, filled)| {
            let (mut own, mut shared) = (filled.clone(), vec![0; self.shared]);
            (call(work, &mut own, &mut shared), own, shared)
        })
    }

    fn time<A>(
        &self,
        (buffers, shared): &mut (Vec<Vec<u8>>, Vec<u8>),
        call: impl Fn(&W, &mut [u8], &mut [u8]) -> A,
    ) -> f64 {
        for (buffer, filled) in buffers.iter_mut().zip(&self.filled) {
            buffer.copy_from_slice(filled);
        }
        shared.fill(0);
        let (works, buffers, shared) = black_box((self.works, buffers, shared));
        let start = Instant::now();
        for (work, own) in works.iter().zip(&mut *buffers) {
            black_box(call(work, own, shared));
        }
        let seconds = start.elapsed().as_secs_f64();
        black_box((buffers, shared));
        seconds
    }
}
