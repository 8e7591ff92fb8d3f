//! A library from a file: so the tests of the tests put in wrong ones without linking anew.

use crate::answer::{Answer, EnergyAnswer};
use crate::ffi::Library;
use std::ffi::{c_char, c_int, c_void, CStr, CString};
use std::mem::transmute_copy;

extern "C" {
    fn dlopen(file: *const c_char, flags: c_int) -> *mut c_void;
    fn dlsym(library: *mut c_void, name: *const c_char) -> *mut c_void;
    fn dlerror() -> *const c_char;
}

const RESOLVE_NOW: c_int = 2;

/// Stays loaded until the program ends.
pub fn load(file: &str) -> Result<&'static Library<Answer, EnergyAnswer>, String> {
    let name = CString::new(file).map_err(|_| "a file name has no byte 0".to_string())?;
    // SAFETY: the name is ended by a byte 0, and loading runs no code of these libraries.
    let library = unsafe { dlopen(name.as_ptr(), RESOLVE_NOW) };
    if library.is_null() {
        // SAFETY: there was an error, so its text is there, ended by a byte 0.
        return Err(unsafe { CStr::from_ptr(dlerror()) }.to_string_lossy().into_owned());
    }
    Ok(Box::leak(Box::new(Library {
        name: "loaded library",
        read_net: symbol(library, c"pti_read_net")?,
        build: symbol(library, c"pti_build")?,
        check: symbol(library, c"pti_check")?,
        replay: symbol(library, c"pti_replay")?,
        arrange: symbol(library, c"pti_arrange")?,
        energy: symbol(library, c"pti_energy")?,
        refused_line: symbol(library, c"pti_refused_line")?,
        program: symbol(library, c"pti_program")?,
    })))
}

/// The function of that name, which must have the type F of the C interface.
fn symbol<F: Copy>(library: *mut c_void, name: &CStr) -> Result<F, String> {
    // SAFETY: the library is open and the name ended by a byte 0.
    let found = unsafe { dlsym(library, name.as_ptr()) };
    if found.is_null() {
        return Err(format!("there is no {}", name.to_string_lossy()));
    }
    assert_eq!(size_of::<F>(), size_of_val(&found));
    // SAFETY: F is a pointer to a function, which by pti.h is what the name has.
    Ok(unsafe { transmute_copy(&found) })
}
