// The contents that the next new list starts with, so that a store can begin from a list that
// `add` would refuse. The stores' `new` has no bound on the element type, hence raw octets.
use std::cell::RefCell;

thread_local! {
    static SEED: RefCell<(usize, Vec<u8>)> = const { RefCell::new((0, Vec::new())) };
}

pub fn plant<T: Copy>(items: &[T]) {
    let size = std::mem::size_of::<T>();
    let mut octets = vec![0u8; std::mem::size_of_val(items)];
    // Plain pairs of integers of one width: no padding.
    unsafe { std::ptr::copy_nonoverlapping(items.as_ptr() as *const u8, octets.as_mut_ptr(), octets.len()) };
    SEED.with(|s| *s.borrow_mut() = (size, octets));
}

pub fn take<T>() -> Vec<T> {
    let (size, octets) = SEED.with(|s| std::mem::take(&mut *s.borrow_mut()));
    if octets.is_empty() {
        return Vec::new();
    }
    assert_eq!(size, std::mem::size_of::<T>(), "seed of another element type");
    let n = octets.len() / size;
    let mut out = Vec::<T>::with_capacity(n);
    unsafe {
        std::ptr::copy_nonoverlapping(octets.as_ptr(), out.as_mut_ptr() as *mut u8, octets.len());
        out.set_len(n);
    }
    out
}
