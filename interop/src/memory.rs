/// Gives it back to the system, as far as it lies in whole pages. glibc's allocator does so by itself only at the end of what it has, so
/// that what many connections took would stay.
pub fn give_back() {
    // Sound: the call takes a number and has no other condition.
    #[cfg(target_env = "gnu")]
    unsafe {
        libc::malloc_trim(0);
    }
}
