//! Two copies of the crates' code, in which functions begin at 0 and at 16 modulo 32 bytes, since some processors mind
//! where jumps lie. A slice is passed as a pointer and a length.

use crate::Measured;

type EntryTicks = unsafe extern "C" fn(*const u8, usize, *const u16, usize, bool, u32) -> Measured;
type Ticks = unsafe extern "C" fn(*const u8, usize, *const u16, usize, u32, u32) -> Measured;
type Search =
    unsafe extern "C" fn(*const u8, usize, *const u16, usize, u32, usize, u32, u32) -> Measured;
type Opening = unsafe extern "C" fn(*const u8, usize, u32) -> Measured;

macro_rules! copies {
    ($($name:ident, $shifted:ident($($argument:ty),*);)*) => {
        unsafe extern "C" {
            $(fn $name($(_: $argument),*) -> Measured; fn $shifted($(_: $argument),*) -> Measured;)*
        }
    };
}

copies! {
    crates_entry_ticks, crates_entry_ticks_at_16(*const u8, usize, *const u16, usize, bool, u32);
    crates_ticks, crates_ticks_at_16(*const u8, usize, *const u16, usize, u32, u32);
    crates_opening, crates_opening_at_16(*const u8, usize, u32);
}

#[cfg(searches)]
copies! {
    crates_search, crates_search_at_16(*const u8, usize, *const u16, usize, u32, usize, u32, u32);
}

/// None where the crates have no search yet.
#[cfg(searches)]
pub const SEARCH: Option<[Search; 2]> = Some([crates_search, crates_search_at_16]);
#[cfg(not(searches))]
pub const SEARCH: Option<[Search; 2]> = None;
pub const ENTRY_TICKS: [EntryTicks; 2] = [crates_entry_ticks, crates_entry_ticks_at_16];
pub const TICKS: [Ticks; 2] = [crates_ticks, crates_ticks_at_16];
pub const OPENING: [Opening; 2] = [crates_opening, crates_opening_at_16];
