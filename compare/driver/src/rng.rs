//! Repeatable random numbers.

/// SplitMix64: small, quick, and good enough to spread cases.
pub struct Rng {
    state: u64,
}

impl Rng {
    pub fn new(seed: u64) -> Rng {
        Rng { state: seed }
    }

    /// A stream of its own for one part of a run.
    pub fn for_part(seed: u64, area: u64, part: u64) -> Rng {
        // each number is mixed in before the next, so that neighbouring parts have nothing in common
        let mut state = seed;
        for number in [area, part] {
            state = Rng::new(state ^ number).next();
        }
        Rng { state }
    }

    pub fn next(&mut self) -> u64 {
        self.state = self.state.wrapping_add(0x9e37_79b9_7f4a_7c15);
        let mut mixed = self.state;
        mixed = (mixed ^ (mixed >> 30)).wrapping_mul(0xbf58_476d_1ce4_e5b9);
        mixed = (mixed ^ (mixed >> 27)).wrapping_mul(0x94d0_49bb_1331_11eb);
        mixed ^ (mixed >> 31)
    }

    /// A number below `limit`, which is not 0.
    pub fn below(&mut self, limit: u64) -> u64 {
        (u128::from(self.next()) * u128::from(limit) >> 64) as u64
    }

    /// A length from `least` to `most`.
    pub fn length(&mut self, least: usize, most: usize) -> usize {
        least + self.below((most - least + 1) as u64) as usize
    }

    /// True once in `count` times.
    pub fn one_in(&mut self, count: u64) -> bool {
        self.below(count) == 0
    }

    pub fn pick<T: Copy>(&mut self, from: &[T]) -> T {
        from[self.below(from.len() as u64) as usize]
    }

    /// One of the anchors, or a number at most two away, around the end of 64 bits too.
    pub fn near(&mut self, anchors: &[u64]) -> u64 {
        let delta = self.below(5).wrapping_sub(2);
        self.pick(anchors).wrapping_add(delta)
    }

    pub fn byte(&mut self) -> u8 {
        self.next() as u8
    }

    pub fn fill(&mut self, bytes: &mut [u8]) {
        for chunk in bytes.chunks_mut(8) {
            let random = self.next().to_le_bytes();
            chunk.copy_from_slice(&random[..chunk.len()]);
        }
    }

    pub fn bytes(&mut self, length: usize) -> Vec<u8> {
        let mut bytes = vec![0; length];
        self.fill(&mut bytes);
        bytes
    }
}

#[cfg(test)]
mod tests {
    use super::*;

    #[test]
    fn one_seed_gives_one_stream_and_parts_differ() {
        let take = |mut rng: Rng| [rng.next(), rng.next()];
        assert_eq!(take(Rng::for_part(1, 2, 3)), take(Rng::for_part(1, 2, 3)));
        assert_ne!(take(Rng::for_part(1, 2, 3)), take(Rng::for_part(1, 2, 4)));
        assert_ne!(take(Rng::for_part(1, 2, 3)), take(Rng::for_part(1, 3, 3)));
        assert_ne!(take(Rng::for_part(1, 2, 3)), take(Rng::for_part(2, 2, 3)));
    }

    #[test]
    fn numbers_stay_within_their_limits_and_reach_them() {
        let mut rng = Rng::new(7);
        let lengths: Vec<usize> = (0..200).map(|_| rng.length(2, 4)).collect();
        assert!(lengths.iter().all(|length| (2..=4).contains(length)));
        assert!([2, 3, 4].iter().all(|length| lengths.contains(length)));
        let near: Vec<u64> = (0..200).map(|_| rng.near(&[0])).collect();
        assert!([u64::MAX - 1, u64::MAX, 0, 1, 2]
            .iter()
            .all(|n| near.contains(n)));
    }
}
