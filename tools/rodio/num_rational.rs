//! What rodio asks of the crate `num_rational`: a fraction in lowest terms.

pub struct Ratio<T> {
    numer: T,
    denom: T,
}

impl Ratio<u32> {
    pub fn new(numer: u32, denom: u32) -> Ratio<u32> {
        let (mut a, mut b) = (numer, denom);
        while b != 0 {
            (a, b) = (b, a % b);
        }
        Ratio {
            numer: numer / a,
            denom: denom / a,
        }
    }

    pub fn into_raw(self) -> (u32, u32) {
        (self.numer, self.denom)
    }
}
