//! Shared buffers: one allocation that slices of any type look into, as arrow's `Buffer`.

use std::alloc::{Layout, dealloc};
use std::mem::ManuallyDrop;
use std::ptr::NonNull;
use std::sync::Arc;

/// Types that may lie in a buffer: any bit pattern is one, and dropping does nothing.
///
/// # Safety
/// As it says.
pub unsafe trait Pod: Copy + Send + Sync + 'static {}
macro_rules! pod { ($($t:ty)*) => { $(unsafe impl Pod for $t {})* } }
pod!(u8 u16 u32 u64 i8 i16 i32 i64 u128 usize);

struct Bytes {
    ptr: NonNull<u8>,
    layout: Layout,
}

// SAFETY: it is never written once it is shared.
unsafe impl Send for Bytes {}
// SAFETY: as above.
unsafe impl Sync for Bytes {}

impl Drop for Bytes {
    fn drop(&mut self) {
        if self.layout.size() != 0 {
            // SAFETY: ptr and layout are those of the vector that it was.
            unsafe { dealloc(self.ptr.as_ptr(), self.layout) }
        }
    }
}

#[derive(Clone)]
pub struct Buffer {
    data: Arc<Bytes>,
    ptr: NonNull<u8>,
    len: usize,
}

// SAFETY: as of Bytes.
unsafe impl Send for Buffer {}
// SAFETY: as of Bytes.
unsafe impl Sync for Buffer {}

impl Buffer {
    pub fn from_vec<T: Pod>(items: Vec<T>) -> Buffer {
        let len = size_of_val(items.as_slice());
        let mut items = ManuallyDrop::new(items);
        let layout = Layout::array::<T>(items.capacity()).unwrap();
        // SAFETY: a vector's pointer is not null.
        let ptr = unsafe { NonNull::new_unchecked(items.as_mut_ptr().cast::<u8>()) };
        Buffer { data: Arc::new(Bytes { ptr, layout }), ptr, len }
    }

    #[inline]
    pub fn len(&self) -> usize {
        self.len
    }

    #[inline]
    pub fn as_slice(&self) -> &[u8] {
        // SAFETY: ptr and len lie within the data, which lives as long.
        unsafe { std::slice::from_raw_parts(self.ptr.as_ptr(), self.len) }
    }

    /// The items that the bytes are; panics where they do not lie aligned, or are no whole items.
    #[inline]
    pub fn typed<T: Pod>(&self) -> &[T] {
        assert!(self.ptr.as_ptr().cast::<T>().is_aligned() && self.len % size_of::<T>() == 0);
        // SAFETY: tested above; T is any bit pattern.
        unsafe {
            std::slice::from_raw_parts(self.ptr.as_ptr().cast::<T>(), self.len / size_of::<T>())
        }
    }

    pub fn is_aligned_to<T: Pod>(&self) -> bool {
        self.ptr.as_ptr().cast::<T>().is_aligned()
    }

    #[inline]
    pub fn slice(&self, start: usize, len: usize) -> Buffer {
        assert!(start <= self.len && len <= self.len - start);
        // SAFETY: within the data.
        let ptr = unsafe { self.ptr.add(start) };
        Buffer { data: self.data.clone(), ptr, len }
    }
}
