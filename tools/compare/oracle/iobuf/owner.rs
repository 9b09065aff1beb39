//! Stand-in for the owners of allocations under the crate's buffers: each allocation has a counted record.

use bytes::Bytes;
use std::alloc::{Layout, alloc, alloc_zeroed, dealloc};
use std::ptr::NonNull;
use std::sync::atomic::{AtomicUsize, Ordering};

pub enum Storage {
    Native { base: NonNull<u8>, layout: Layout },
    External(Bytes),
}

struct Record {
    views: AtomicUsize,
    storage: Storage,
}

/// A record, or nothing.
#[derive(Clone, Copy)]
pub struct Owner(*mut Record);

/// An owner without a record. There is none here.
#[derive(Clone, Copy)]
pub enum Descriptor {}

impl Descriptor {
    pub fn tail(self) -> usize {
        match self {}
    }

    pub fn without_tail(self) -> Self {
        self
    }
}

impl From<Descriptor> for Owner {
    fn from(descriptor: Descriptor) -> Self {
        match descriptor {}
    }
}

impl Owner {
    pub const fn empty() -> Self {
        Self(std::ptr::null_mut())
    }

    pub fn new(storage: Storage) -> Self {
        Self(Box::into_raw(Box::new(Record {
            views: AtomicUsize::new(1),
            storage,
        })))
    }

    /// `capacity` is not 0.
    pub fn allocate(capacity: usize, alignment: usize, zeroed: bool) -> (NonNull<u8>, Self) {
        let layout = Layout::from_size_align(capacity, alignment).expect("a layout");
        // SAFETY: the layout's size is not 0.
        let ptr = unsafe {
            if zeroed {
                alloc_zeroed(layout)
            } else {
                alloc(layout)
            }
        };
        let base = NonNull::new(ptr).expect("memory");
        (base, Self::new(Storage::Native { base, layout }))
    }

    /// The capacity of `vec` is not 0.
    pub fn adopt_vec(vec: Vec<u8>) -> (NonNull<u8>, usize, usize, Self) {
        let mut vec = std::mem::ManuallyDrop::new(vec);
        let (len, cap) = (vec.len(), vec.capacity());
        let base = NonNull::new(vec.as_mut_ptr()).expect("an allocation");
        let layout = Layout::array::<u8>(cap).expect("a layout");
        (base, len, cap, Self::new(Storage::Native { base, layout }))
    }

    pub fn is_empty(self) -> bool {
        self.0.is_null()
    }

    pub fn descriptor(self) -> Option<Descriptor> {
        None
    }

    /// # Safety
    ///
    /// The record, if any, is alive as long as the answer is used.
    pub unsafe fn storage<'a>(self) -> Option<&'a Storage> {
        // SAFETY: as the caller promises.
        unsafe { self.0.as_ref().map(|record| &record.storage) }
    }

    /// # Safety
    ///
    /// The record, if any, is alive.
    pub unsafe fn is_unique(self) -> bool {
        // SAFETY: as the caller promises.
        unsafe {
            self.0
                .as_ref()
                .is_none_or(|record| record.views.load(Ordering::Acquire) == 1)
        }
    }

    /// # Safety
    ///
    /// The record, if any, is alive.
    pub unsafe fn clone_shared(self) {
        // SAFETY: as the caller promises.
        if let Some(record) = unsafe { self.0.as_ref() } {
            record.views.fetch_add(1, Ordering::AcqRel);
        }
    }

    /// Gives one view up unless it is the last; answers whether it is.
    ///
    /// # Safety
    ///
    /// The caller owns a view of the record, if any.
    pub unsafe fn drop_view(self) -> bool {
        // SAFETY: as the caller promises.
        let Some(record) = (unsafe { self.0.as_ref() }) else {
            return false;
        };
        if record.views.fetch_sub(1, Ordering::AcqRel) == 1 {
            record.views.store(1, Ordering::Release);
            return true;
        }
        false
    }

    /// # Safety
    ///
    /// The caller owns the only view of the record, if any.
    pub unsafe fn release_unique(self, _ptr: NonNull<u8>, _len: usize) {
        if self.0.is_null() {
            return;
        }
        // SAFETY: as the caller promises; the record came from a box.
        let record = unsafe { Box::from_raw(self.0) };
        if let Storage::Native { base, layout } = &record.storage {
            // SAFETY: allocated with this layout.
            unsafe { dealloc(base.as_ptr(), *layout) };
        }
    }

    /// # Safety
    ///
    /// The caller owns the record.
    pub unsafe fn frozen(self, _ptr: NonNull<u8>, _len: usize, _cap: usize) -> Self {
        self
    }

    /// # Safety
    ///
    /// The caller hands over its view, which is `ptr` and `len`.
    pub unsafe fn into_bytes(self, ptr: NonNull<u8>, len: usize) -> Bytes {
        // SAFETY: the view's bytes are initialized, and it is given up after the copy.
        unsafe {
            let bytes = Bytes::copy_from_slice(std::slice::from_raw_parts(ptr.as_ptr(), len));
            if self.drop_view() {
                self.release_unique(ptr, len);
            }
            bytes
        }
    }
}

/// The owner in a handle.
pub struct OwnerCell(Owner);

impl OwnerCell {
    pub const fn new(owner: Owner) -> Self {
        Self(owner)
    }

    pub const fn empty() -> Self {
        Self(Owner::empty())
    }

    pub fn get(&mut self) -> Owner {
        self.0
    }

    pub fn load(&self) -> Owner {
        self.0
    }

    /// # Safety
    ///
    /// Never called: there are no descriptors.
    pub unsafe fn promote(&self, descriptor: Descriptor, _ptr: NonNull<u8>, _len: usize) -> Owner {
        match descriptor {}
    }

    /// # Safety
    ///
    /// The handle owns a view.
    pub unsafe fn retain_mut(&mut self, _ptr: NonNull<u8>, _len: usize) -> Owner {
        // SAFETY: as the caller promises.
        unsafe { self.0.clone_shared() };
        self.0
    }
}
