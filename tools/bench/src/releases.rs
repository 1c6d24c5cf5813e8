//! Two releases of the library, both linked by `before-after.sh`: the one before a change, whose functions have `before_` in front of
//! their names, and the one after it. Each has beside its calls a lookup that can be called by itself.

use crate::library::{self, Answered, Told, Walking};
use oracle::answers::Case;

/// A lookup of a name in a map: the number that the first two bytes of the answer stand for, or 0 if it is shorter.
type Find = unsafe extern "C" fn(*const u8, usize, *const u8, usize) -> usize;

macro_rules! linked {
    ($find:ident, $whole:ident) => {
        extern "C" {
            fn $find(name: *const u8, name_len: usize, map: *const u8, map_len: usize) -> usize;
            fn $whole(
                f: usize,
                work: *mut u8,
                work_len: usize,
                counter: u64,
                input: *const u8,
                input_len: usize,
                result: *mut u8,
                result_len: usize,
                told: *mut Told,
            ) -> u32;
        }
    };
}

linked!(before_rename_lookup, before_rename_whole_form);
linked!(rename_lookup, rename_whole_form);

pub struct Release {
    find: Find,
    whole: Walking,
}

/// Before and after.
pub static BOTH: [Release; 2] = [
    Release { find: before_rename_lookup, whole: before_rename_whole_form },
    Release { find: rename_lookup, whole: rename_whole_form },
];

impl Release {
    /// What the map makes of a name, by its first two bytes.
    pub fn lookup(&self, name: &[u8], map: &[u8]) -> usize {
        // SAFETY: each pointer and length are one slice's, and the map is entries one after the other.
        unsafe { (self.find)(name.as_ptr(), name.len(), map.as_ptr(), map.len()) }
    }

    /// The call Whole form.
    pub fn whole_form(&self, case: &Case, work: &mut [u8], result: &mut [u8]) -> Answered {
        library::walked(self.whole, case, work, &case.input, result)
    }
}
