//! crypt(3) of libxcrypt, the system's own password hashing. No crate that Debian packages calls it, so it is called from here, and this is
//! the only module of the front that is not checked by the compiler.
#![allow(unsafe_code)]

use std::ffi::{CStr, CString};
use std::os::raw::{c_char, c_int, c_ulong, c_void};
use std::ptr;

/// CRYPT_GENSALT_OUTPUT_SIZE and the size of crypt_data, as crypt.h has them.
const SETTING: usize = 192;
const SCRATCH: usize = 32_768;

#[link(name = "crypt")]
extern "C" {
    fn crypt_rn(phrase: *const c_char, setting: *const c_char, data: *mut c_void, size: c_int) -> *mut c_char;
    fn crypt_gensalt_rn(
        prefix: *const c_char,
        count: c_ulong,
        random: *const c_char,
        random_size: c_int,
        output: *mut c_char,
        output_size: c_int,
    ) -> *mut c_char;
}

/// The hash of a password by a setting, which may be a whole hash. `None` where libxcrypt cannot make one.
pub fn hash(password: &CStr, setting: &CStr) -> Option<String> {
    let mut scratch = vec![0u8; SCRATCH];
    // Safety: both texts end in a zero, the scratch is as large as said and lives until the result, a text inside it or null, is copied.
    let hash = unsafe {
        let text = crypt_rn(password.as_ptr(), setting.as_ptr(), scratch.as_mut_ptr().cast(), SCRATCH as c_int);
        (!text.is_null()).then(|| CStr::from_ptr(text).to_string_lossy().into_owned())
    };
    scratch.fill(0);
    hash.filter(|text| !text.starts_with('*'))
}

/// A fresh setting for a new yescrypt hash, with a salt of the system's random bytes and libxcrypt's own cost.
pub fn fresh_setting() -> Option<CString> {
    let mut output = vec![0u8; SETTING];
    // Safety: the prefix ends in a zero, no random bytes are handed over, and the output is as large as said and written with its end.
    let made = unsafe {
        let prefix = b"$y$\0".as_ptr().cast();
        crypt_gensalt_rn(prefix, 0, ptr::null(), 0, output.as_mut_ptr().cast(), SETTING as c_int)
    };
    if made.is_null() {
        return None;
    }
    let end = output.iter().position(|byte| *byte == 0)?;
    CString::new(&output[..end]).ok()
}

#[cfg(test)]
mod tests {
    use super::*;

    fn text(bytes: &str) -> CString {
        CString::new(bytes).unwrap()
    }

    #[test]
    fn known_hashes_are_made_again() {
        // sha512 as `openssl passwd -6` makes it, bcrypt from the test vectors of its authors.
        let known = [
            ("Hello world!", "$6$saltstring$svn8UoSVapNtMuq1ukKS4tPQd8iKwSMHWjl/O817G3uBnIFNjnQJuesI68u4OTLiBFdcbYEdFCoEOfaS35inz1"),
            ("U*U", "$2a$05$CCCCCCCCCCCCCCCCCCCCC.E5YPO9kmyuRGyh0XouQYb4YMJKvyOeW"),
        ];
        for (password, hashed) in known {
            assert_eq!(hash(&text(password), &text(hashed)).as_deref(), Some(hashed));
            assert_ne!(hash(&text("another"), &text(hashed)).as_deref(), Some(hashed));
        }
    }

    #[test]
    fn a_fresh_setting_makes_a_hash_that_is_made_again() {
        let first = hash(&text("secret"), &fresh_setting().unwrap()).unwrap();
        assert!(first.starts_with("$y$"));
        assert_eq!(hash(&text("secret"), &text(&first)), Some(first.clone()));
        assert_ne!(hash(&text("secret"), &fresh_setting().unwrap()), Some(first));
    }

    #[test]
    fn no_hash_by_a_bad_setting() {
        for setting in ["", "*0", "!", "$nothing$"] {
            assert_eq!(hash(&text("secret"), &text(setting)), None);
        }
    }
}
