//! Inputs made one after the other, family by family.

use crate::rng::Rng;

/// How many a family has, and how its `index`-th is made; what it doesn't name is left to the generator.
type Family<T> = (usize, fn(usize, &mut Rng) -> T);

pub struct Families<T: 'static>(pub &'static [Family<T>]);

impl<T> Families<T> {
    /// How many inputs they have together.
    pub fn size(&self) -> usize {
        self.0.iter().map(|(size, _)| size).sum()
    }

    /// The `index`-th of all.
    pub fn case(&self, mut index: usize, rng: &mut Rng) -> T {
        for (size, make) in self.0 {
            if index < *size {
                return make(index, rng);
            }
            index -= size;
        }
        panic!("there are {} inputs", self.size())
    }
}
