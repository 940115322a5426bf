//! The set of numbers that `HandleSet` is made of: one truth value a number.

#[derive(Clone, Debug, Default)]
pub struct BitVec {
    bits: Vec<bool>,
}

impl BitVec {
    /// Sets every bit that there is.
    pub fn fill(&mut self, value: bool) {
        self.bits.fill(value);
    }

    pub fn iter_mut(&mut self) -> std::slice::IterMut<'_, bool> {
        self.bits.iter_mut()
    }
}

#[derive(Clone, Debug, Default)]
pub struct BitSet {
    vec: BitVec,
}

impl BitSet {
    pub fn new() -> Self {
        Self::default()
    }

    /// An empty set with a bit for each number below `count`.
    pub fn with_capacity(count: usize) -> Self {
        Self::from_bit_vec(BitVec {
            bits: vec![false; count],
        })
    }

    pub fn from_bit_vec(vec: BitVec) -> Self {
        BitSet { vec }
    }

    pub fn into_bit_vec(self) -> BitVec {
        self.vec
    }

    pub fn get_mut(&mut self) -> &mut BitVec {
        &mut self.vec
    }

    pub fn is_empty(&self) -> bool {
        !self.vec.bits.contains(&true)
    }

    pub fn make_empty(&mut self) {
        self.vec.fill(false);
    }

    /// Makes room for the numbers below `count`.
    pub fn reserve_len(&mut self, count: usize) {
        if self.vec.bits.len() < count {
            self.vec.bits.resize(count, false);
        }
    }

    pub fn contains(&self, number: usize) -> bool {
        self.vec.bits.get(number).is_some_and(|bit| *bit)
    }

    /// Adds a number and tells whether it is new.
    pub fn insert(&mut self, number: usize) -> bool {
        self.reserve_len(number + 1);
        !std::mem::replace(&mut self.vec.bits[number], true)
    }

    /// Takes a number out and tells whether it was there.
    pub fn remove(&mut self, number: usize) -> bool {
        match self.vec.bits.get_mut(number) {
            Some(bit) => std::mem::replace(bit, false),
            None => false,
        }
    }

    /// The members, smallest first.
    pub fn iter(&self) -> impl Iterator<Item = usize> + '_ {
        let bits = self.vec.bits.iter().enumerate();
        bits.filter_map(|(number, bit)| bit.then_some(number))
    }
}
