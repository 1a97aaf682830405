//! How deep a call's stack goes: it runs on a thread whose stack was filled with a known byte, and what is left of that is looked at.

use std::ffi::{c_int, c_void};

const STACK_BYTES: usize = 1 << 20;
/// Not reached: a stack that is overwritten to here is taken as too small.
const LOWEST: usize = 1 << 16;
const PAINT: u8 = 0xa5;
/// More than the `pthread_attr_t` of any processor takes.
const ATTRIBUTE_WORDS: usize = 32;

type Attributes = [u64; ATTRIBUTE_WORDS];

extern "C" {
    fn pthread_attr_init(attributes: *mut Attributes) -> c_int;
    fn pthread_attr_setstack(attributes: *mut Attributes, lowest: *mut c_void, size: usize) -> c_int;
    fn pthread_attr_destroy(attributes: *mut Attributes) -> c_int;
    fn pthread_create(
        thread: *mut u64,
        attributes: *const Attributes,
        start: extern "C" fn(*mut c_void) -> *mut c_void,
        argument: *mut c_void,
    ) -> c_int;
    fn pthread_join(thread: u64, value: *mut *mut c_void) -> c_int;
}

#[repr(C, align(65536))]
struct Stack([u8; STACK_BYTES]);

/// The bytes from the top of a new thread's stack to the lowest one that is overwritten.
pub fn overwritten(mut call: &mut dyn FnMut()) -> usize {
    let mut stack = Box::new_uninit();
    // All of it is filled before it is taken as a stack of bytes.
    let stack: &mut Stack = unsafe {
        std::ptr::write_bytes(stack.as_mut_ptr() as *mut u8, PAINT, STACK_BYTES);
        stack.assume_init_mut()
    };
    let mut attributes: Attributes = [0; ATTRIBUTE_WORDS];
    let mut thread = 0;
    // The thread has ended before the stack and the call are looked at again.
    let failed = unsafe {
        pthread_attr_init(&mut attributes)
            | pthread_attr_setstack(&mut attributes, stack.0.as_mut_ptr().cast(), STACK_BYTES)
            | pthread_create(&mut thread, &attributes, start, (&raw mut call).cast())
            | pthread_join(thread, std::ptr::null_mut())
            | pthread_attr_destroy(&mut attributes)
    };
    assert_eq!(failed, 0, "a thread with this stack");
    let lowest = stack.0.iter().position(|byte| *byte != PAINT).expect("the thread ran");
    assert!(lowest > LOWEST, "a stack of {STACK_BYTES} bytes is enough");
    STACK_BYTES - lowest
}

extern "C" fn start(call: *mut c_void) -> *mut c_void {
    // What `overwritten` lends until the thread has ended.
    let call = unsafe { &mut *call.cast::<&mut dyn FnMut()>() };
    call();
    std::ptr::null_mut()
}
