//! The best-ranked pairs met so far: one list for every baseline.
use furzeladle::Pair;
use std::cmp::Reverse;

const PLACES: usize = 64;
const ZERO: Pair = Pair {
    sum: 0,
    field: 0,
    trim: 0,
};

pub struct Held {
    room: usize,
    count: usize,
    places: [Pair; PLACES],
}

pub fn ahead(p: &Pair, q: &Pair) -> bool {
    (Reverse(p.sum), p.field, p.trim) < (Reverse(q.sum), q.field, q.trim)
}

impl Held {
    /// Nothing held, and room for k pairs.
    pub fn new(k: u32) -> Held {
        Held {
            room: k as usize,
            count: 0,
            places: [ZERO; PLACES],
        }
    }

    pub fn pairs(&self) -> &[Pair] {
        &self.places[..self.count]
    }

    pub fn is_full(&self) -> bool {
        self.count == self.room
    }

    pub fn spare_places_are_zeros(&self) -> bool {
        self.places[self.count..].iter().all(|p| *p == ZERO)
    }

    /// The lowest held sum of a full list: the source's bound. Minus one while any pair would go in.
    pub fn bound(&self) -> i32 {
        match self.pairs().last() {
            Some(last) if self.is_full() => last.sum as i32,
            _ => -1,
        }
    }

    /// Puts a pair at its rank; from a full list the last one falls off.
    pub fn put(&mut self, p: Pair) {
        let n = self.count;
        if n == self.room && !ahead(&p, &self.places[n - 1]) {
            return;
        }
        let mut i = if n == self.room { n - 1 } else { n };
        while i > 0 && ahead(&p, &self.places[i - 1]) {
            self.places[i] = self.places[i - 1];
            i -= 1;
        }
        self.places[i] = p;
        self.count = self.room.min(n + 1);
    }

    /// The first pair goes out, and its room with it.
    pub fn take(&mut self) -> Pair {
        let given = self.places[0];
        self.places.copy_within(1.., 0);
        self.places[PLACES - 1] = ZERO;
        self.count -= 1;
        self.room -= 1;
        given
    }

    pub fn sums(&self) -> Vec<u32> {
        self.pairs().iter().map(|p| p.sum).collect()
    }
}
