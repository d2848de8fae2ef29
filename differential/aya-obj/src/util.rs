//! Stands in for the crate's src/util.rs.
pub(crate) type HashMap<K, V> = std::collections::HashMap<K, V>;
pub(crate) type HashSet<T> = std::collections::HashSet<T>;

pub(crate) const unsafe fn bytes_of<T>(value: &T) -> &[u8] {
    unsafe { std::slice::from_raw_parts(std::ptr::from_ref(value).cast(), size_of::<T>()) }
}
