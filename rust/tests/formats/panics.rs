//! Every `# Panics` of the package: just inside of the condition nothing happens, just outside the
//! call panics.

use std::panic::{AssertUnwindSafe, catch_unwind};
use uefi_formats::UnalignedSlice;
use uefi_formats::mem::memory_map::*;
use uefi_formats::pcr::PcrValue;

fn panics<T>(call: impl FnOnce() -> T) -> bool {
    catch_unwind(AssertUnwindSafe(call)).is_err()
}

#[test]
fn units() {
    assert_eq!(UnalignedSlice::new(&[1, 0]).len(), 1);
    assert!(panics(|| UnalignedSlice::new(&[1, 0, 2]).len()));
}

#[test]
fn maps() {
    let mut bytes = [0; 96];
    let meta = MemoryMapMeta::of(48, 48);
    let map = MemoryMapRef::new(&bytes, meta).unwrap();
    assert_eq!(map.at(0), MemoryDescriptor::default());
    assert!(panics(|| map.at(1)), "a descriptor behind the map");
    assert!(panics(|| map.at(usize::MAX)));
    let mut map = MemoryMapRefMut::over(&mut bytes, meta);
    map.set_at(0, MemoryDescriptor::default());
    assert!(panics(|| map.set_at(1, MemoryDescriptor::default())));
    assert!(panics(|| map.set_at(usize::MAX, MemoryDescriptor::default())));
    let _whole = MemoryMapRefMut::over(&mut bytes, MemoryMapMeta::of(96, 48));
    assert!(panics(|| MemoryMapRefMut::over(&mut bytes, MemoryMapMeta::of(144, 48)).len()));
    assert!(panics(|| MemoryMapRefMut::over(&mut bytes, MemoryMapMeta::of(96, 0)).len()));
    assert_eq!(MemoryMapMeta::of(96, 48).entry_count(), 2);
    assert!(panics(|| MemoryMapMeta::of(96, 0).entry_count()));
    assert!(panics(|| MemoryMapMeta::of(96, 36).entry_count()));
}

#[test]
fn values_of_pcrs() {
    assert_eq!(PcrValue::new(&[7; 64]).as_bytes(), [7; 64]);
    assert!(panics(|| PcrValue::new(&[7; 65])));
}
