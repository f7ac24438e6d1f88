// Stand-in for heapless's Vec: std's, held to N items; `new` begins from the seed.
pub use vec::Vec;

pub mod vec {
    use std::ops::{Deref, DerefMut};

    #[derive(Debug, Default)]
    pub struct Vec<T, const N: usize>(std::vec::Vec<T>);

    impl<T, const N: usize> Vec<T, N> {
        #[allow(clippy::new_without_default)]
        pub fn new() -> Self {
            let items = seed::take();
            assert!(items.len() <= N, "seed above the capacity");
            Vec(items)
        }

        pub fn is_full(&self) -> bool {
            self.0.len() == N
        }

        pub fn push(&mut self, item: T) -> Result<(), T> {
            if self.is_full() {
                return Err(item);
            }
            self.0.push(item);
            Ok(())
        }

        pub fn insert(&mut self, at: usize, item: T) -> Result<(), T> {
            assert!(at <= self.0.len());
            if self.is_full() {
                return Err(item);
            }
            self.0.insert(at, item);
            Ok(())
        }
    }

    // clear, truncate, as_mut_slice, retain, remove, len and the slice's own methods.
    impl<T, const N: usize> Deref for Vec<T, N> {
        type Target = std::vec::Vec<T>;
        fn deref(&self) -> &Self::Target {
            &self.0
        }
    }

    impl<T, const N: usize> DerefMut for Vec<T, N> {
        fn deref_mut(&mut self) -> &mut Self::Target {
            &mut self.0
        }
    }

    impl<'a, T, const N: usize> IntoIterator for &'a Vec<T, N> {
        type Item = &'a T;
        type IntoIter = std::slice::Iter<'a, T>;
        fn into_iter(self) -> Self::IntoIter {
            self.0.iter()
        }
    }
}
