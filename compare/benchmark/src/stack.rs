//! How much stack a call uses: it runs on a thread whose stack was painted, and
//! afterwards the paint that is left is measured. For POSIX threads.

use std::alloc::{alloc, dealloc, Layout};
use std::ffi::{c_int, c_void};

const SIZE: usize = 16 << 20;
const PAGE: usize = 4096;
const PAINT: u64 = 0x5EA1_ED5E_A1ED_5EA1;

/// Room for a `pthread_attr_t`; the C library's own is 56 bytes on 64-bit Linux.
#[repr(C, align(16))]
struct Attributes([u8; 256]);

extern "C" {
    fn pthread_attr_init(attributes: *mut Attributes) -> c_int;
    fn pthread_attr_setstack(attributes: *mut Attributes, lowest: *mut c_void, size: usize) -> c_int;
    fn pthread_attr_destroy(attributes: *mut Attributes) -> c_int;
    fn pthread_create(
        thread: *mut usize,
        attributes: *const Attributes,
        start: extern "C" fn(*mut c_void) -> *mut c_void,
        argument: *mut c_void,
    ) -> c_int;
    fn pthread_join(thread: usize, answer: *mut *mut c_void) -> c_int;
}

/// The most stack bytes that `call` touched, beyond what a thread takes that
/// does nothing.
pub fn peak(mut call: impl FnMut()) -> usize {
    touched(&mut call).saturating_sub(touched(&mut || ()))
}

fn touched(call: &mut dyn FnMut()) -> usize {
    let layout = Layout::from_size_align(SIZE, PAGE).expect("a page is a power of two");
    // SAFETY: the memory is allocated with `layout` and freed with it once the
    // thread that used it as its stack has been joined.
    unsafe {
        let stack = alloc(layout).cast::<u64>();
        assert!(!stack.is_null(), "no memory for a stack of {SIZE} bytes");
        let words = std::slice::from_raw_parts_mut(stack, SIZE / 8);
        words.fill(PAINT);
        run_on(stack.cast(), call);
        // The stack grows down, so that its paint goes from the top.
        let paint_left = words.iter().take_while(|&&word| word == PAINT).count() * 8;
        dealloc(stack.cast(), layout);
        SIZE - paint_left
    }
}

extern "C" fn start(argument: *mut c_void) -> *mut c_void {
    // SAFETY: `run_on` passes a pointer to its `call`, and waits.
    let call = unsafe { &mut *argument.cast::<&mut dyn FnMut()>() };
    call();
    std::ptr::null_mut()
}

/// # Safety
///
/// `lowest` is the start of `SIZE` bytes that nothing else uses meanwhile.
unsafe fn run_on(lowest: *mut c_void, mut call: &mut dyn FnMut()) {
    let mut attributes = Attributes([0; 256]);
    let mut thread = 0;
    let done = |code: c_int| assert_eq!(code, 0, "a thread call failed");
    done(pthread_attr_init(&mut attributes));
    done(pthread_attr_setstack(&mut attributes, lowest, SIZE));
    done(pthread_create(&mut thread, &attributes, start, (&raw mut call).cast()));
    done(pthread_join(thread, std::ptr::null_mut()));
    done(pthread_attr_destroy(&mut attributes));
}

#[cfg(test)]
mod tests {
    use super::peak;
    use std::hint::black_box;

    #[test]
    fn a_large_frame_is_measured() {
        let used = peak(|| _ = black_box([1u8; 100_000]));
        assert!((99_000..110_000).contains(&used), "{used}");
    }

    #[test]
    fn nothing_takes_next_to_nothing() {
        let used = peak(|| ());
        assert!(used < 200, "{used}");
    }
}
