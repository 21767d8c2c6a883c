//! OpenSSL's SM3 from libcrypto, by its EVP functions.

use std::ffi::{c_char, c_int, c_uint, c_void, CStr};
use std::ptr;

extern "C" {
    fn OpenSSL_version(part: c_int) -> *const c_char;
    fn EVP_sm3() -> *const c_void;
    fn EVP_Digest(
        data: *const c_void,
        count: usize,
        out: *mut u8,
        size: *mut c_uint,
        kind: *const c_void,
        engine: *mut c_void,
    ) -> c_int;
    fn EVP_MD_fetch(
        context: *mut c_void,
        algorithm: *const c_char,
        properties: *const c_char,
    ) -> *mut c_void;
    fn EVP_MD_free(kind: *mut c_void);
    fn EVP_MD_CTX_new() -> *mut c_void;
    fn EVP_MD_CTX_free(context: *mut c_void);
    fn EVP_DigestInit_ex(context: *mut c_void, kind: *const c_void, engine: *mut c_void) -> c_int;
    fn EVP_DigestUpdate(context: *mut c_void, data: *const c_void, count: usize) -> c_int;
    fn EVP_DigestFinal_ex(context: *mut c_void, out: *mut u8, size: *mut c_uint) -> c_int;
}

/// The library's name with its version.
pub fn version() -> String {
    let text = unsafe { CStr::from_ptr(OpenSSL_version(0)) };
    text.to_string_lossy().into_owned()
}

/// The digest by one call, `EVP_Digest`, which makes and drops a context.
pub fn one_call(bytes: &[u8]) -> [u8; 32] {
    let mut out = [0; 32];
    let mut size: c_uint = 0;
    let done = unsafe {
        EVP_Digest(
            bytes.as_ptr().cast(),
            bytes.len(),
            out.as_mut_ptr(),
            &mut size,
            EVP_sm3(),
            ptr::null_mut(),
        )
    };
    assert_eq!((done, size), (1, 32), "EVP_Digest failed");
    out
}

/// A context made once and used for many digests: OpenSSL's quickest way.
pub struct Context {
    kind: *mut c_void,
    context: *mut c_void,
}

impl Context {
    pub fn new() -> Context {
        let kind = unsafe { EVP_MD_fetch(ptr::null_mut(), c"SM3".as_ptr(), ptr::null()) };
        let context = unsafe { EVP_MD_CTX_new() };
        assert!(!kind.is_null() && !context.is_null(), "no SM3 in OpenSSL");
        Context { kind, context }
    }

    pub fn digest(&mut self, bytes: &[u8], out: &mut [u8; 32]) {
        let done = unsafe {
            EVP_DigestInit_ex(self.context, self.kind, ptr::null_mut())
                & EVP_DigestUpdate(self.context, bytes.as_ptr().cast(), bytes.len())
                & EVP_DigestFinal_ex(self.context, out.as_mut_ptr(), ptr::null_mut())
        };
        assert_eq!(done, 1, "OpenSSL's digest failed");
    }
}

impl Default for Context {
    fn default() -> Context {
        Context::new()
    }
}

impl Drop for Context {
    fn drop(&mut self) {
        unsafe {
            EVP_MD_CTX_free(self.context);
            EVP_MD_free(self.kind);
        }
    }
}
