// Takes the place of `alloc`: std's own Vec, except that `new` begins from the seed.
pub mod vec {
    use std::ops::{Deref, DerefMut};

    #[derive(Debug, Default)]
    pub struct Vec<T>(std::vec::Vec<T>);

    impl<T> Vec<T> {
        #[allow(clippy::new_without_default)]
        pub fn new() -> Self {
            Vec(seed::take())
        }
    }

    impl<T> Deref for Vec<T> {
        type Target = std::vec::Vec<T>;
        fn deref(&self) -> &Self::Target {
            &self.0
        }
    }

    impl<T> DerefMut for Vec<T> {
        fn deref_mut(&mut self) -> &mut Self::Target {
            &mut self.0
        }
    }

    impl<'a, T> IntoIterator for &'a Vec<T> {
        type Item = &'a T;
        type IntoIter = std::slice::Iter<'a, T>;
        fn into_iter(self) -> Self::IntoIter {
            self.0.iter()
        }
    }
}
