//! How much stack a call takes: it is run on a stack of its own that was painted before (x86-64).

use std::arch::asm;
use std::ffi::c_void;

const PAINT: u64 = 0x5AFE_57AC_5AFE_57AC;

extern "C" fn enter(call: *mut c_void) {
    // SAFETY: `used` gives a pointer to a reference that outlives the call.
    let call = unsafe { &mut *call.cast::<&mut dyn FnMut()>() };
    call();
}

/// Runs the call on a painted stack of 256 KiB; the bytes of it that were written to.
pub fn used(call: &mut dyn FnMut()) -> usize {
    let mut call = call;
    let mut stack = vec![PAINT; 0x8000];
    let range = stack.as_mut_ptr_range();
    let top = range.end as usize & !15;
    // SAFETY: the stack pointer is back where it was after the call; r12 is kept by the callee.
    unsafe {
        asm!(
            "mov r12, rsp",
            "mov rsp, {top}",
            "call {enter}",
            "mov rsp, r12",
            top = in(reg) top,
            enter = in(reg) enter as extern "C" fn(*mut c_void),
            in("rdi") std::ptr::from_mut(&mut call).cast::<c_void>(),
            out("r12") _,
            clobber_abi("C"),
        );
    }
    let untouched = stack.iter().take_while(|&&word| word == PAINT).count();
    8 * (stack.len() - untouched)
}
