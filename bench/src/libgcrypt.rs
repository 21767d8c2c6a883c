//! libgcrypt's SM3, on slices.

use std::ffi::{c_char, c_int, c_uint, c_void, CStr, CString};
use std::ptr;

extern "C" {
    fn gcry_control(command: c_int, ...) -> c_uint;
    fn gcry_check_version(least: *const c_char) -> *const c_char;
    fn gcry_get_config(mode: c_int, what: *const c_char) -> *mut c_char;
    fn gcry_free(text: *mut c_void);
    fn gcry_md_hash_buffer(kind: c_int, out: *mut c_void, data: *const c_void, count: usize);
}

/// Starts the library, which looks at the processor's features once and then
/// chooses its code by them; the one named in `without`, if any, it is told to
/// leave aside. False where it knows no feature of that name.
pub fn start(without: Option<&str>) -> bool {
    const DISABLE_HWF: c_int = 63;
    const INITIALIZATION_FINISHED: c_int = 38;
    if let Some(feature) = without {
        let Ok(name) = CString::new(feature) else {
            return false;
        };
        let end: *const c_char = ptr::null();
        if unsafe { gcry_control(DISABLE_HWF, name.as_ptr(), end) } != 0 {
            return false;
        }
    }
    unsafe {
        gcry_check_version(ptr::null());
        gcry_control(INITIALIZATION_FINISHED, 0 as c_int);
    }
    true
}

/// The features that the library found, those it left aside not among them.
fn features() -> String {
    let text = unsafe { gcry_get_config(0, c"hwflist".as_ptr()) };
    assert!(!text.is_null(), "libgcrypt names no features");
    let line = unsafe { CStr::from_ptr(text) }
        .to_string_lossy()
        .into_owned();
    unsafe { gcry_free(text.cast()) };
    line
}

/// The library's name with its version, and which of its codes for SM3 on
/// x86-64 it takes: that is the rule of `sm3_init` in its `cipher/sm3.c`.
pub fn version() -> String {
    let number = unsafe { CStr::from_ptr(gcry_check_version(ptr::null())) };
    let list = features();
    let found = |name| list.trim().split(':').any(|feature| feature == name);
    let code = match (found("intel-avx2"), found("intel-bmi2")) {
        (true, true) => "AVX/BMI2",
        _ => "C",
    };
    format!("libgcrypt {} by its {code} code", number.to_string_lossy())
}

/// The digest by one call, libgcrypt's quickest way: it allocates nothing.
pub fn digest(bytes: &[u8], out: &mut [u8; 32]) {
    const SM3: c_int = 326;
    let (to, from) = (out.as_mut_ptr().cast(), bytes.as_ptr().cast());
    unsafe { gcry_md_hash_buffer(SM3, to, from, bytes.len()) }
}
