#![no_main]

libfuzzer_sys::fuzz_target!(|bytes: &[u8]| {
    gotsavena_fuzz::run(bytes);
});
