//! How much stack a call takes: it runs on memory filled with a pattern, and
//! the part that was overwritten is measured. And calls further down the stack.

use library::{Call, ADVANCE_MOST, PAGE_LENGTH, STATE_LENGTH};
use std::arch::asm;
use std::hint::black_box;

const STACK: usize = 1 << 20;
const FILLED: u8 = 0xa5;

/// Calls with the stack pointer at `top`.
///
/// Safety: `top` is aligned to 16 bytes and ends enough memory for the call;
/// the call keeps to the x86-64 C convention.
unsafe fn call_at(top: *mut u8, call: Call, request: &[u8], page: &mut [u8]) -> u32 {
    let mut written: u64 = 0;
    let number: u64;
    asm!(
        "mov r12, rsp",
        "mov rsp, r13",
        "call r14",
        "mov rsp, r12",
        out("r12") _,
        in("r13") top,
        in("r14") call,
        inout("rdi") request.as_ptr() => _,
        inout("rsi") request.len() => _,
        inout("rdx") page.as_mut_ptr() => _,
        inout("rcx") page.len() => _,
        inout("r8") &raw mut written => _,
        lateout("rax") number,
        clobber_abi("C"),
    );
    number as u32
}

/// The call's number, and the bytes of stack below its caller's frame down to
/// the deepest byte that was written.
pub fn stack_of(call: Call, request: &[u8], page: &mut [u8]) -> (u32, usize) {
    let mut memory = vec![FILLED; STACK];
    let end = memory.as_mut_ptr_range().end;
    let top = end.wrapping_sub(end as usize % 16);
    // Safety: `top` ends a megabyte of memory, and the calls keep to the C
    // convention.
    let number = unsafe { call_at(top, call, request, page) };
    let usable = top as usize - memory.as_ptr() as usize;
    let untouched = memory.iter().take_while(|byte| **byte == FILLED).count();
    (number, usable.saturating_sub(untouched))
}

/// An advance by the most candidates with a state and a page that lie one after
/// the other.
///
/// Safety: as for the archive's function; the memory is longer than a state.
unsafe extern "C" fn advance(
    _: *const u8,
    _: usize,
    memory: *mut u8,
    length: usize,
    written: *mut u64,
) -> u32 {
    let page = memory.add(STATE_LENGTH);
    let page_length = length - STATE_LENGTH;
    library::SWEEP_ADVANCE(
        memory,
        STATE_LENGTH,
        ADVANCE_MOST,
        page,
        page_length,
        written,
    )
}

/// The same of an advance by the most candidates; a few words of it are its
/// caller's.
pub fn stack_of_advance(state: &[u8]) -> (u32, usize) {
    let mut memory = state.to_vec();
    memory.resize(STATE_LENGTH + PAGE_LENGTH, 0);
    stack_of(advance, &[], &mut memory)
}

/// Examines a candidate from the middle of the grid with a state.
///
/// Safety: as for the archive's function.
unsafe extern "C" fn examine(
    state: *const u8,
    state_length: usize,
    page: *mut u8,
    page_length: usize,
    written: *mut u64,
) -> u32 {
    library::SWEEP_EXAMINE(state, state_length, 350, 50, 22, page, page_length, written)
}

/// The same of an examination with a state; a few words of it are its caller's.
pub fn stack_of_examination(state: &[u8]) -> (u32, usize) {
    stack_of(examine, state, &mut [0; PAGE_LENGTH])
}

/// Declares calls for a length in the shape of a `Call`.
macro_rules! as_calls {
    ($($name:ident: $call:path;)*) => {
        $(/// Safety: as for the archive's function.
        unsafe extern "C" fn $name(
            request: *const u8,
            request_length: usize,
            _: *mut u8,
            _: usize,
            length: *mut u64,
        ) -> u32 {
            $call(request, request_length, length)
        })*
    };
}

as_calls! {
    length_of_choice: library::LENGTH_CHOOSE;
    length_of_candidate: library::LENGTH_EXAMINE;
    length_of_line: library::LENGTH_LINE;
}

/// The calls for a length, whose stack is taken as that of any call: of what is
/// chosen, of a candidate and of a line. A few words of it are their caller's.
pub const LENGTHS: [Call; 3] = [length_of_choice, length_of_candidate, length_of_line];

/// Calls with the stack some frames of at least 256 bytes further down.
#[inline(never)]
pub fn further_down<T>(frames: usize, call: &mut dyn FnMut() -> T) -> T {
    let frame = black_box([0_u8; 256]);
    let result = match frames {
        0 => call(),
        _ => further_down(frames - 1, call),
    };
    black_box(frame);
    result
}
