//! The generator `Lcg64Xsh32`, seeded by one number.

#[derive(Clone)]
pub struct Draws {
    state: u64,
    increment: u64,
}

const FACTOR: u64 = 6_364_136_223_846_793_005;
/// What a seed is stretched by.
const STRETCH: u64 = 11_634_580_027_462_260_723;

fn output(state: u64) -> u32 {
    ((((state >> 18) ^ state) >> 27) as u32).rotate_right((state >> 59) as u32)
}

impl Draws {
    pub fn seeded(mut seed: u64) -> Draws {
        let [a, b, c, d] = std::array::from_fn(|_| {
            seed = seed.wrapping_mul(FACTOR).wrapping_add(STRETCH);
            u64::from(output(seed))
        });
        let increment = (c | d << 32) | 1;
        let mut draws = Draws { state: (a | b << 32).wrapping_add(increment), increment };
        draws.draw();
        draws
    }

    pub fn draw(&mut self) -> u32 {
        let state = self.state;
        self.state = state.wrapping_mul(FACTOR).wrapping_add(self.increment);
        output(state)
    }
}
