//! Marks for callgrind: what it has to count.

/// Calls the work. Callgrind finds this function by its name and counts what it calls.
#[unsafe(no_mangle)]
#[inline(never)]
pub fn gotsavena_counted(work: &mut dyn FnMut()) {
    work();
}

/// The same, for a callgrind that looks at nothing until this call: all before it then runs five times as fast.
#[allow(dead_code)]
pub fn counted_late(work: &mut dyn FnMut()) {
    look_from_here();
    gotsavena_counted(work);
}

/// From here on callgrind looks at what is done, if it was told to begin late. It is CALLGRIND_START_INSTRUMENTATION of valgrind's header, which
/// does nothing without valgrind.
#[cfg(target_arch = "x86_64")]
pub fn look_from_here() {
    let request: [u64; 6] = [0x4354_0004, 0, 0, 0, 0, 0];
    // SAFETY: four rotations by 128 bits in all leave rdi as it was, and the exchange of a register with itself changes nothing. valgrind
    // reads the request, and writes its answer to rdx.
    unsafe {
        core::arch::asm!(
            "rol rdi, 3",
            "rol rdi, 13",
            "rol rdi, 61",
            "rol rdi, 51",
            "xchg rbx, rbx",
            in("rax") &request,
            inout("rdx") 0u64 => _,
            out("rdi") _,
        );
    }
}

#[cfg(not(target_arch = "x86_64"))]
pub fn look_from_here() {}
