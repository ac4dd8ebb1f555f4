// The attacks on quinn-proto, with a heap that is counted.

#[allow(dead_code)]
mod heap;

#[global_allocator]
static ALLOCATOR: heap::Watched = heap::Watched;

fn main() -> std::process::ExitCode {
    quinn_proto::driver::attacks::main(heap::live)
}
