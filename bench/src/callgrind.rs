//! Instruction counts: callgrind's requests, which do nothing outside of it.
use std::arch::asm;

const ZERO_STATS: u64 = 0x4354_0001;
const DUMP_STATS_AT: u64 = 0x4354_0003;

/// Valgrind reads these instructions as a request; the processor turns rdi round to where it was.
fn request(code: u64, arg: u64) {
    let args: [u64; 6] = [code, arg, 0, 0, 0, 0];
    unsafe {
        asm!(
            "rol rdi, 3",
            "rol rdi, 13",
            "rol rdi, 61",
            "rol rdi, 51",
            "xchg rbx, rbx",
            in("rax") args.as_ptr(),
            inout("rdx") 0u64 => _,
            in("rdi") 0u64,
        );
    }
}

/// Counts what f does, in a dump of that name.
pub fn counted(name: &str, f: impl FnOnce()) {
    let name = format!("{name}\0");
    request(ZERO_STATS, 0);
    f();
    request(DUMP_STATS_AT, name.as_ptr() as u64);
}
