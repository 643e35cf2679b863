//! Slices with guards around them, so that a write outside a lent slice is seen.

use std::fmt::Debug;

/// The elements of a guard. The number is odd, so that lent bytes stand at odd addresses too.
const GUARD: usize = 19;

/// Elements with a guard before and after them.
#[derive(Debug, Clone)]
pub struct Guarded<T> {
    all: Vec<T>,
}

impl<T: Copy + PartialEq + Debug + From<u8>> Guarded<T> {
    /// These elements between two guards.
    pub fn new(elements: &[T]) -> Guarded<T> {
        let guard: Vec<T> = guard().collect();
        Guarded {
            all: [&guard, elements, &guard].concat(),
        }
    }

    /// The elements.
    pub fn lent(&self) -> &[T] {
        &self.all[GUARD..self.all.len() - GUARD]
    }

    /// The elements, to be changed.
    pub fn lent_mut(&mut self) -> &mut [T] {
        let end = self.all.len() - GUARD;
        &mut self.all[GUARD..end]
    }

    /// Fails unless both guards are as they were made.
    pub fn check(&self, name: &str) -> Result<(), String> {
        let before = &self.all[..GUARD];
        let after = &self.all[self.all.len() - GUARD..];
        if !before.iter().copied().eq(guard()) {
            return Err(format!(
                "the tested call wrote before the {name}: {before:?}"
            ));
        }
        if !after.iter().copied().eq(guard()) {
            return Err(format!(
                "the tested call wrote behind the {name}: {after:?}"
            ));
        }
        Ok(())
    }
}

/// The elements of a guard. None is 0, so that a cleared guard is seen.
fn guard<T: From<u8>>() -> impl Iterator<Item = T> {
    (0..GUARD as u8).map(|place| T::from(0xA1 + place))
}

#[cfg(test)]
mod tests {
    use super::*;

    #[test]
    fn each_changed_guard_element_is_seen() {
        let sound = Guarded::new(&[1u32, 2, 3]);
        assert_eq!(sound.lent(), [1, 2, 3]);
        assert_eq!(sound.check("list"), Ok(()));
        for place in 0..sound.all.len() {
            let mut changed = sound.clone();
            changed.all[place] = 0;
            let inside = (GUARD..GUARD + 3).contains(&place);
            assert_eq!(changed.check("list").is_ok(), inside, "{place}");
        }
    }
}
