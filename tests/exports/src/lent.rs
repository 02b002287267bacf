//! A slice as it is lent to a call: octets with guard octets before and behind them.
//! A call that writes outside its slice changes a guard octet, and that is told.

/// Guard octets on each side. An odd number, so that a slice hardly ever begins where a word does.
const GUARD: usize = 47;

pub struct Lent {
    whole: Vec<u8>,
}

impl Lent {
    pub fn of(octets: &[u8]) -> Lent {
        let mut whole = Vec::with_capacity(octets.len() + 2 * GUARD);
        whole.extend(guard());
        whole.extend(octets);
        whole.extend(guard());
        Lent { whole }
    }

    pub fn pointer(&mut self) -> *mut u8 {
        self.whole[GUARD..].as_mut_ptr()
    }

    /// How many octets are lent.
    pub fn octets(&self) -> usize {
        self.whole.len() - 2 * GUARD
    }

    /// The octets as the call left them.
    pub fn left(&self) -> &[u8] {
        &self.whole[GUARD..self.whole.len() - GUARD]
    }

    /// Whether all guard octets are as they were.
    pub fn is_guarded(&self) -> bool {
        let behind = self.whole.len() - GUARD;
        self.whole[..GUARD].iter().copied().eq(guard())
            && self.whole[behind..].iter().copied().eq(guard())
    }
}

/// No two neighbours are alike and none is 0 or all ones, so that little can pass unseen.
fn guard() -> impl Iterator<Item = u8> {
    (0..GUARD).map(|i| 0x5B + 3 * i as u8)
}
