//! OpenSSL's SHA-256 and SM3, where the machine has libcrypto: loaded at run time, in a
//! process of its own, since OPENSSL_ia32cap is read when it is loaded.

use crate::contestants::{Contestant, Sha256, Sm3};
use std::cell::Cell;
use std::ffi::{c_char, c_int, c_void, CStr};
use std::sync::OnceLock;

extern "C" {
    fn dlopen(name: *const c_char, flags: c_int) -> *mut c_void;
    fn dlsym(handle: *mut c_void, name: *const c_char) -> *mut c_void;
}

/// Room for a SHA256_CTX (112 bytes; its first eight words are the state).
#[repr(C, align(16))]
struct Context([u32; 64]);

type Init = unsafe extern "C" fn(*mut Context) -> c_int;
type Update = unsafe extern "C" fn(*mut Context, *const u8, usize) -> c_int;
type Final = unsafe extern "C" fn(*mut u8, *mut Context) -> c_int;
type Transform = unsafe extern "C" fn(*mut Context, *const u8);

struct Functions {
    init: Init,
    update: Update,
    finish: Final,
    transform: Transform,
}

static FUNCTIONS: OnceLock<Option<Functions>> = OnceLock::new();

// SM3 has no functions of its own that a caller sees: it goes by those for any digest.
type Named = unsafe extern "C" fn() -> *const c_void;
type New = unsafe extern "C" fn() -> *mut c_void;
type Start = unsafe extern "C" fn(*mut c_void, *const c_void, *const c_void) -> c_int;
type More = unsafe extern "C" fn(*mut c_void, *const u8, usize) -> c_int;
type End = unsafe extern "C" fn(*mut c_void, *mut u8, *mut u32) -> c_int;

struct Digests {
    sm3: Named,
    new: New,
    start: Start,
    more: More,
    end: End,
}

static DIGESTS: OnceLock<Option<Digests>> = OnceLock::new();

fn digests() -> Option<&'static Digests> {
    DIGESTS.get_or_init(load_digests).as_ref()
}

fn functions() -> Option<&'static Functions> {
    FUNCTIONS.get_or_init(load).as_ref()
}

/// A function of libcrypto, of the type that the caller says.
fn symbol(name: &CStr) -> Option<*mut c_void> {
    const NOW: c_int = 2;
    let names = [c"libcrypto.so.3", c"libcrypto.so.1.1", c"libcrypto.so"];
    let library = names.iter().map(|name| unsafe { dlopen(name.as_ptr(), NOW) }).find(|handle| !handle.is_null())?;
    let found = unsafe { dlsym(library, name.as_ptr()) };
    (!found.is_null()).then_some(found)
}

fn load() -> Option<Functions> {
    unsafe {
        Some(Functions {
            init: std::mem::transmute::<*mut c_void, Init>(symbol(c"SHA256_Init")?),
            update: std::mem::transmute::<*mut c_void, Update>(symbol(c"SHA256_Update")?),
            finish: std::mem::transmute::<*mut c_void, Final>(symbol(c"SHA256_Final")?),
            transform: std::mem::transmute::<*mut c_void, Transform>(symbol(c"SHA256_Transform")?),
        })
    }
}

fn load_digests() -> Option<Digests> {
    unsafe {
        let digests = Digests {
            sm3: std::mem::transmute::<*mut c_void, Named>(symbol(c"EVP_sm3")?),
            new: std::mem::transmute::<*mut c_void, New>(symbol(c"EVP_MD_CTX_new")?),
            start: std::mem::transmute::<*mut c_void, Start>(symbol(c"EVP_DigestInit_ex")?),
            more: std::mem::transmute::<*mut c_void, More>(symbol(c"EVP_DigestUpdate")?),
            end: std::mem::transmute::<*mut c_void, End>(symbol(c"EVP_DigestFinal_ex")?),
        };
        // A libcrypto can be built without SM3.
        let context = (digests.new)();
        ((digests.start)(context, (digests.sm3)(), std::ptr::null()) == 1).then_some(digests)
    }
}

pub fn is_here() -> bool {
    functions().is_some()
}

pub fn is_sm3_here() -> bool {
    digests().is_some()
}

fn hash(parts: &[&[u8]], out: &mut [u8; 32]) {
    let functions = functions().expect("libcrypto");
    let mut context = Context([0; 64]);
    unsafe {
        (functions.init)(&mut context);
        for part in parts {
            (functions.update)(&mut context, part.as_ptr(), part.len());
        }
        (functions.finish)(out.as_mut_ptr(), &mut context);
    }
}

pub const OPENSSL: Sha256 = Contestant {
    name: "OpenSSL",
    digest: |input, out| hash(&[input], out),
    leaf: |item, out| hash(&[&[0], item], out),
    node: |left, right, out| hash(&[&[1], left, right], out),
    step: |state, block, _| {
        let functions = functions().expect("libcrypto");
        let mut context = Context([0; 64]);
        context.0[..8].copy_from_slice(state);
        unsafe { (functions.transform)(&mut context, block.as_ptr()) };
        state.copy_from_slice(&context.0[..8]);
    },
    is_step_over_the_given: true,
};

thread_local! {
    /// One context of SM3, started, for all digests: it is started anew for each, which makes none.
    static CONTEXT: Cell<*mut c_void> = const { Cell::new(std::ptr::null_mut()) };
}

fn sm3_context(digests: &Digests) -> *mut c_void {
    if CONTEXT.get().is_null() {
        let context = unsafe { (digests.new)() };
        assert_eq!(unsafe { (digests.start)(context, (digests.sm3)(), std::ptr::null()) }, 1);
        CONTEXT.set(context);
    }
    CONTEXT.get()
}

fn sm3(parts: &[&[u8]], out: &mut [u8; 32]) {
    let digests = digests().expect("libcrypto");
    let context = sm3_context(digests);
    unsafe {
        (digests.start)(context, std::ptr::null(), std::ptr::null());
        for part in parts {
            (digests.more)(context, part.as_ptr(), part.len());
        }
        (digests.end)(context, out.as_mut_ptr(), std::ptr::null_mut());
    }
}

pub const OPENSSL_SM3: Sm3 = Contestant {
    name: "OpenSSL",
    digest: |input, out| sm3(&[input], out),
    leaf: |item, out| sm3(&[&[0], item], out),
    node: |left, right, out| sm3(&[&[1], left, right], out),
    // One block more of a digest that does not end: its state cannot be given.
    step: |_, block, _| unsafe {
        let digests = digests().expect("libcrypto");
        (digests.more)(sm3_context(digests), block.as_ptr(), 64);
    },
    is_step_over_the_given: false,
};
