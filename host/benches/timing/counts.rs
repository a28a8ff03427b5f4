//! Instructions in place of times: `tools/speed/instructions` has an emulator note each one, and counts those from one mark to the next.
use std::env;

/// Whether to count.
pub fn counting() -> bool {
    env::var_os("COE_DESK_COUNT").is_some()
}

/// The emulator's notes have this name.
#[no_mangle]
#[inline(never)]
pub extern "C" fn coe_bench_mark() {
    super::opaque(0);
}

/// Makes the call once between two marks, where instructions are counted.
pub fn counted(call: &mut impl FnMut()) -> bool {
    if !counting() {
        return false;
    }
    coe_bench_mark();
    call();
    coe_bench_mark();
    true
}
