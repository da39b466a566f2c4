//! The checker under test, through its C interface: the library that this build
//! links, and libraries built earlier, opened while the program runs.

use crate::side::{Found, Raw, Rooms, Side, Told, Wait};
use std::ffi::{c_char, c_int, c_void, CStr, CString};

/// The C library as one side of a comparison, if this build links it.
pub fn library() -> Option<Box<dyn Side>> {
    #[cfg(cundvrest_c)]
    return Some(Box::new(Library {
        name: "C library".to_string(),
        functions: Functions::LINKED,
    }));
    #[cfg(not(cundvrest_c))]
    None
}

/// A shared library at this path as one side of a comparison. It stays open to
/// the end of the process. A function that it lacks may not be called.
pub fn earlier(path: &str) -> Result<Box<dyn Side>, String> {
    let file = CString::new(path).map_err(|error| error.to_string())?;
    // SAFETY: both functions take strings that end with 0 and are alive during
    // the call; the symbols have the types that the header declares.
    unsafe {
        let handle = dlopen(file.as_ptr(), RTLD_NOW);
        if handle.is_null() {
            return Err(CStr::from_ptr(dlerror()).to_string_lossy().into_owned());
        }
        let functions = Functions::opened(handle);
        if functions.cundvrest_check.is_none() {
            return Err(format!("{path}: no function cundvrest_check"));
        }
        Ok(Box::new(Library {
            name: path.to_string(),
            functions,
        }))
    }
}

const RTLD_NOW: c_int = 2;

extern "C" {
    fn dlopen(file: *const c_char, mode: c_int) -> *mut c_void;
    fn dlsym(handle: *mut c_void, name: *const c_char) -> *mut c_void;
    fn dlerror() -> *const c_char;
}

/// The functions of the interface, written once: linked, and looked up by name.
macro_rules! functions {
    ($(fn $name:ident($($argument:ident: $kind:ty),* $(,)?);)*) => {
        #[cfg(cundvrest_c)]
        mod linked {
            use super::{Found, Raw, Told, Wait};
            extern "C" {
                $(pub fn $name($($argument: $kind),*);)*
            }
        }

        struct Functions {
            $($name: Option<unsafe extern "C" fn($($kind),*)>,)*
        }

        impl Functions {
            #[cfg(cundvrest_c)]
            const LINKED: Functions = Functions {
                $($name: Some(linked::$name),)*
            };

            /// The functions of an open library. Its symbols must have these types.
            unsafe fn opened(handle: *mut c_void) -> Functions {
                Functions {
                    $($name: std::mem::transmute::<*mut c_void, Option<unsafe extern "C" fn($($kind),*)>>(
                        dlsym(handle, concat!(stringify!($name), "\0").as_ptr().cast()),
                    ),)*
                }
            }
        }
    };
}

functions! {
    fn cundvrest_read(
        plan: *const u8,
        plan_len: usize,
        room: *mut u64,
        room_len: usize,
        told: *mut Told,
    );
    fn cundvrest_write(
        numbers: *const u64,
        numbers_len: usize,
        room: *mut u8,
        room_len: usize,
        told: *mut Told,
    );
    fn cundvrest_check(
        plan: *const u8,
        plan_len: usize,
        table: *mut u32,
        table_len: usize,
        list: *mut u32,
        list_len: usize,
        told: *mut Told,
    );
    fn cundvrest_reuse(
        plan: *const u8,
        plan_len: usize,
        queue: u32,
        buffer: u32,
        table: *mut u32,
        table_len: usize,
        list: *mut u32,
        list_len: usize,
        told: *mut Told,
    );
    fn cundvrest_suggest(
        plan: *const u8,
        plan_len: usize,
        queue: u32,
        buffer: u32,
        table: *mut u32,
        table_len: usize,
        list: *mut u32,
        list_len: usize,
        wait: *mut Wait,
        told: *mut Told,
    );
    fn cundvrest_frontier(
        plan: *const u8,
        plan_len: usize,
        operation: u32,
        capacity: u32,
        table: *mut u32,
        table_len: usize,
        list: *mut u32,
        list_len: usize,
        frontier: *mut Raw,
        told: *mut Told,
    );
    fn cundvrest_trace(
        plan: *const u8,
        plan_len: usize,
        trace: *const u8,
        trace_len: usize,
        table: *mut u32,
        table_len: usize,
        list: *mut u32,
        list_len: usize,
        state: *mut u64,
        state_len: usize,
        found: *mut Found,
        told: *mut Told,
    );
    fn cundvrest_lookup(frontier: *const Raw, axis: u64, epoch: *mut u64, told: *mut Told);
    fn cundvrest_merge(
        left: *const Raw,
        right: *const Raw,
        capacity: u32,
        merged: *mut Raw,
        told: *mut Told,
    );
    fn cundvrest_raise(
        old: *const Raw,
        axis: u64,
        epoch: u64,
        capacity: u32,
        raised: *mut Raw,
        told: *mut Told,
    );
    fn cundvrest_dominates(left: *const Raw, right: *const Raw, told: *mut Told);
}

/// One library.
struct Library {
    name: String,
    functions: Functions,
}

/// The function of this name; a library that lacks it fails loudly.
macro_rules! function {
    ($library:ident, $name:ident) => {
        $library
            .functions
            .$name
            .unwrap_or_else(|| panic!("{}: no function {}", $library.name, stringify!($name)))
    };
}

// SAFETY of every call below: each pointer comes from a reference or a
// slice with the length beside it, alive during the call; lent parts do not
// overlap; the library keeps no pointer.
impl Side for Library {
    fn name(&self) -> String {
        self.name.clone()
    }

    fn read(&self, plan: &[u8], room: &mut [u64], told: &mut Told) {
        unsafe {
            function!(self, cundvrest_read)(
                plan.as_ptr(),
                plan.len(),
                room.as_mut_ptr(),
                room.len(),
                told,
            )
        }
    }

    fn write(&self, numbers: &[u64], room: &mut [u8], told: &mut Told) {
        unsafe {
            function!(self, cundvrest_write)(
                numbers.as_ptr(),
                numbers.len(),
                room.as_mut_ptr(),
                room.len(),
                told,
            )
        }
    }

    fn check(&self, plan: &[u8], rooms: &mut Rooms, told: &mut Told) {
        unsafe {
            function!(self, cundvrest_check)(
                plan.as_ptr(),
                plan.len(),
                rooms.table.as_mut_ptr(),
                rooms.table.len(),
                rooms.list.as_mut_ptr(),
                rooms.list.len(),
                told,
            )
        }
    }

    fn reuse(&self, plan: &[u8], queue: u32, buffer: u32, rooms: &mut Rooms, told: &mut Told) {
        unsafe {
            function!(self, cundvrest_reuse)(
                plan.as_ptr(),
                plan.len(),
                queue,
                buffer,
                rooms.table.as_mut_ptr(),
                rooms.table.len(),
                rooms.list.as_mut_ptr(),
                rooms.list.len(),
                told,
            )
        }
    }

    fn suggest(
        &self,
        plan: &[u8],
        queue: u32,
        buffer: u32,
        rooms: &mut Rooms,
        wait: &mut Wait,
        told: &mut Told,
    ) {
        unsafe {
            function!(self, cundvrest_suggest)(
                plan.as_ptr(),
                plan.len(),
                queue,
                buffer,
                rooms.table.as_mut_ptr(),
                rooms.table.len(),
                rooms.list.as_mut_ptr(),
                rooms.list.len(),
                wait,
                told,
            )
        }
    }

    fn frontier(
        &self,
        plan: &[u8],
        operation: u32,
        capacity: u32,
        rooms: &mut Rooms,
        frontier: &mut Raw,
        told: &mut Told,
    ) {
        unsafe {
            function!(self, cundvrest_frontier)(
                plan.as_ptr(),
                plan.len(),
                operation,
                capacity,
                rooms.table.as_mut_ptr(),
                rooms.table.len(),
                rooms.list.as_mut_ptr(),
                rooms.list.len(),
                frontier,
                told,
            )
        }
    }

    fn trace(
        &self,
        plan: &[u8],
        recorded: &[u8],
        rooms: &mut Rooms,
        state: &mut [u64],
        found: &mut Found,
        told: &mut Told,
    ) {
        unsafe {
            function!(self, cundvrest_trace)(
                plan.as_ptr(),
                plan.len(),
                recorded.as_ptr(),
                recorded.len(),
                rooms.table.as_mut_ptr(),
                rooms.table.len(),
                rooms.list.as_mut_ptr(),
                rooms.list.len(),
                state.as_mut_ptr(),
                state.len(),
                found,
                told,
            )
        }
    }

    fn lookup(&self, frontier: &Raw, axis: u64, epoch: &mut u64, told: &mut Told) {
        unsafe { function!(self, cundvrest_lookup)(frontier, axis, epoch, told) }
    }

    fn merge(&self, left: &Raw, right: &Raw, capacity: u32, merged: &mut Raw, told: &mut Told) {
        unsafe { function!(self, cundvrest_merge)(left, right, capacity, merged, told) }
    }

    fn raise(
        &self,
        old: &Raw,
        axis: u64,
        epoch: u64,
        capacity: u32,
        raised: &mut Raw,
        told: &mut Told,
    ) {
        unsafe { function!(self, cundvrest_raise)(old, axis, epoch, capacity, raised, told) }
    }

    fn dominates(&self, left: &Raw, right: &Raw, told: &mut Told) {
        unsafe { function!(self, cundvrest_dominates)(left, right, told) }
    }
}
