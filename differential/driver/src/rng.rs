//! Random numbers from a seed (splitmix64): the same seed gives the same run.

pub struct Rng {
    state: u64,
}

impl Rng {
    pub fn new(seed: u64) -> Rng {
        Rng { state: seed }
    }

    pub fn next(&mut self) -> u64 {
        self.state = self.state.wrapping_add(0x9E37_79B9_7F4A_7C15);
        let mut z = self.state;
        z = (z ^ (z >> 30)).wrapping_mul(0xBF58_476D_1CE4_E5B9);
        z = (z ^ (z >> 27)).wrapping_mul(0x94D0_49BB_1331_11EB);
        z ^ (z >> 31)
    }

    /// Less than `n`, which must be above 0.
    pub fn below(&mut self, n: usize) -> usize {
        ((u128::from(self.next()) * n as u128) >> 64) as usize
    }

    /// True `a` times of `b`.
    pub fn chance(&mut self, a: usize, b: usize) -> bool {
        self.below(b) < a
    }

    /// An element, where there is one.
    pub fn any<T: Copy>(&mut self, of: &[T]) -> Option<T> {
        (!of.is_empty()).then(|| *self.pick(of))
    }

    pub fn pick<'a, T>(&mut self, of: &'a [T]) -> &'a T {
        &of[self.below(of.len())]
    }
}

#[cfg(test)]
mod tests {
    use super::*;

    #[test]
    fn the_published_sequence() {
        let mut rng = Rng::new(1234567);
        let got: Vec<u64> = (0..3).map(|_| rng.next()).collect();
        assert_eq!(
            got,
            [
                6457827717110365317,
                3203168211198807973,
                9817491932198370423
            ]
        );
    }

    #[test]
    fn below_reaches_each_number_and_no_other() {
        let mut rng = Rng::new(1);
        let mut met = [0; 7];
        for _ in 0..7000 {
            met[rng.below(7)] += 1;
        }
        assert!(met.iter().all(|&n| (850..1150).contains(&n)), "{met:?}");
    }

    #[test]
    fn chance_is_a_of_b() {
        let mut rng = Rng::new(2);
        let met = (0..10000).filter(|_| rng.chance(1, 4)).count();
        assert!((2300..2700).contains(&met), "{met}");
        assert!(!rng.chance(0, 3) && rng.chance(3, 3));
    }

    #[test]
    fn pick_gives_an_element() {
        let mut rng = Rng::new(3);
        assert_eq!(*rng.pick(&[5]), 5);
        assert_eq!((rng.any(&[5]), rng.any::<u8>(&[])), (Some(5), None));
    }
}
