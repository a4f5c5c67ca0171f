//! The calls and structs of include/mvstore.h, member for member, and slices lent to them.

use std::ptr;

#[repr(C)]
#[derive(Clone, Copy, Debug)]
pub struct View {
    pub edition: u64,
}

#[repr(C)]
#[derive(Clone, Copy, Debug)]
pub struct Chunk {
    pub refusal: u32,
    pub chunk: u32,
    pub block: u32,
    pub blocks: u32,
    pub version: u64,
}

#[repr(C)]
#[derive(Clone, Copy, Debug)]
pub struct Id {
    pub refusal: u32,
    pub id: u64,
}

#[repr(C)]
#[derive(Clone, Copy, Debug)]
pub struct Value {
    pub refusal: u32,
    pub found: u32,
    pub at: u64,
    pub len: u64,
}

#[repr(C)]
#[derive(Clone, Copy, Debug)]
pub struct Entry {
    pub refusal: u32,
    pub number: i64,
    pub key_at: u64,
    pub key_len: u64,
    pub at: u64,
    pub len: u64,
}

#[repr(C)]
#[derive(Clone, Copy, Debug)]
pub struct Count {
    pub refusal: u32,
    pub count: u64,
}

#[repr(C)]
#[derive(Clone, Copy, Debug)]
pub struct Walk {
    pub places: [u32; 16],
    pub depth: u32,
    pub last: u32,
}

#[repr(C)]
#[derive(Clone, Copy, Debug)]
pub struct Step {
    pub refusal: u32,
    pub done: u32,
    pub number: i64,
    pub key_at: u64,
    pub key_len: u64,
    pub at: u64,
    pub len: u64,
    pub walk: Walk,
}

#[repr(C)]
#[derive(Clone, Copy, Debug)]
pub struct Report {
    pub refusal: u32,
    pub depth: u32,
    pub entries: u64,
    pub pages: u64,
}

type Bytes = *const u8;

// As include/mvstore.h declares them.
extern "C" {
    pub fn mvstore_newest(image: Bytes, image_len: usize, view: View) -> Chunk;
    pub fn mvstore_map(
        image: Bytes,
        image_len: usize,
        view: View,
        name: Bytes,
        name_len: usize,
    ) -> Id;
    pub fn mvstore_lookup(
        image: Bytes,
        image_len: usize,
        view: View,
        map: u64,
        kind: u64,
        key: Bytes,
        key_len: usize,
    ) -> Value;
    pub fn mvstore_copy(
        image: Bytes,
        image_len: usize,
        view: View,
        map: u64,
        kind: u64,
        key: Bytes,
        key_len: usize,
        area: *mut u8,
        area_len: usize,
    ) -> Value;
    pub fn mvstore_index(
        image: Bytes,
        image_len: usize,
        view: View,
        map: u64,
        kind: u64,
        index: u64,
    ) -> Entry;
    pub fn mvstore_count(image: Bytes, image_len: usize, view: View, map: u64, kind: u64) -> Count;
    pub fn mvstore_next(
        image: Bytes,
        image_len: usize,
        view: View,
        map: u64,
        kind: u64,
        walk: Walk,
    ) -> Step;
    pub fn mvstore_examine(
        image: Bytes,
        image_len: usize,
        view: View,
        map: u64,
        kind: u64,
    ) -> Report;
}

/// A slice as C lends it: "A null pointer may be passed with length 0."
pub fn lent(bytes: &[u8]) -> Bytes {
    if bytes.is_empty() {
        ptr::null()
    } else {
        bytes.as_ptr()
    }
}

/// The same for an area.
pub fn lent_area(bytes: &mut [u8]) -> *mut u8 {
    if bytes.is_empty() {
        ptr::null_mut()
    } else {
        bytes.as_mut_ptr()
    }
}
