//! The doors of the library, as include/broodchamber.h declares them, behind safe functions. Every door takes every input, so nothing is tested here.

/// The cells of an answer: 0 and the values, or the refusal's number and its place.
pub type Answer = [usize; 4];

#[link(name = "broodchamber", kind = "static")]
extern "C" {
    fn bc_is_sound(n: usize, m: usize, lits: *const u16, lits_len: usize, offs: *const u32, offs_len: usize) -> bool;
    fn bc_clause_literals(
        n: usize,
        m: usize,
        lits: *const u16,
        lits_len: usize,
        offs: *const u32,
        offs_len: usize,
        k: usize,
        answer: *mut usize,
        answer_len: usize,
    ) -> bool;
    fn bc_read_text(
        text: *const u8,
        text_len: usize,
        lits: *mut u16,
        lits_len: usize,
        offs: *mut u32,
        offs_len: usize,
        answer: *mut usize,
        answer_len: usize,
    ) -> bool;
    fn bc_eliminate(
        n: usize,
        m: usize,
        lits: *const u16,
        lits_len: usize,
        offs: *const u32,
        offs_len: usize,
        stack: *mut u32,
        stack_len: usize,
        answer: *mut usize,
        answer_len: usize,
    ) -> bool;
    fn bc_remove(
        n: usize,
        m: usize,
        lits: *const u16,
        lits_len: usize,
        offs: *const u32,
        offs_len: usize,
        stack: *mut u32,
        stack_len: usize,
        count: usize,
        clause: u32,
        literal: u32,
        answer: *mut usize,
        answer_len: usize,
    ) -> bool;
    fn bc_next_blocked(
        n: usize,
        m: usize,
        lits: *const u16,
        lits_len: usize,
        offs: *const u32,
        offs_len: usize,
        stack: *const u32,
        stack_len: usize,
        count: usize,
        answer: *mut usize,
        answer_len: usize,
    ) -> bool;
    fn bc_check_stack(
        n: usize,
        m: usize,
        lits: *const u16,
        lits_len: usize,
        offs: *const u32,
        offs_len: usize,
        stack: *const u32,
        stack_len: usize,
        count: usize,
        answer: *mut usize,
        answer_len: usize,
    ) -> bool;
    fn bc_rebuild(
        n: usize,
        m: usize,
        lits: *const u16,
        lits_len: usize,
        offs: *const u32,
        offs_len: usize,
        stack: *const u32,
        stack_len: usize,
        count: usize,
        vals: *mut u8,
        vals_len: usize,
        answer: *mut usize,
        answer_len: usize,
    ) -> bool;
    fn bc_write_saved(
        n: usize,
        m: usize,
        lits: *const u16,
        lits_len: usize,
        offs: *const u32,
        offs_len: usize,
        stack: *const u32,
        stack_len: usize,
        count: usize,
        out: *mut u8,
        out_len: usize,
        answer: *mut usize,
        answer_len: usize,
    ) -> bool;
    fn bc_read_saved(
        bytes: *const u8,
        bytes_len: usize,
        lits: *mut u16,
        lits_len: usize,
        offs: *mut u32,
        offs_len: usize,
        stack: *mut u32,
        stack_len: usize,
        answer: *mut usize,
        answer_len: usize,
    ) -> bool;
}

pub fn is_sound(n: usize, m: usize, lits: &[u16], offs: &[u32]) -> bool {
    unsafe { bc_is_sound(n, m, lits.as_ptr(), lits.len(), offs.as_ptr(), offs.len()) }
}

pub fn clause_literals(n: usize, m: usize, lits: &[u16], offs: &[u32], k: usize, answer: &mut [usize]) -> bool {
    unsafe {
        bc_clause_literals(
            n,
            m,
            lits.as_ptr(),
            lits.len(),
            offs.as_ptr(),
            offs.len(),
            k,
            answer.as_mut_ptr(),
            answer.len(),
        )
    }
}

pub fn read_text(text: &[u8], lits: &mut [u16], offs: &mut [u32], answer: &mut [usize]) -> bool {
    unsafe {
        bc_read_text(
            text.as_ptr(),
            text.len(),
            lits.as_mut_ptr(),
            lits.len(),
            offs.as_mut_ptr(),
            offs.len(),
            answer.as_mut_ptr(),
            answer.len(),
        )
    }
}

pub fn eliminate(n: usize, m: usize, lits: &[u16], offs: &[u32], stack: &mut [u32], answer: &mut [usize]) -> bool {
    unsafe {
        bc_eliminate(
            n,
            m,
            lits.as_ptr(),
            lits.len(),
            offs.as_ptr(),
            offs.len(),
            stack.as_mut_ptr(),
            stack.len(),
            answer.as_mut_ptr(),
            answer.len(),
        )
    }
}

#[allow(clippy::too_many_arguments)]
pub fn remove(
    n: usize,
    m: usize,
    lits: &[u16],
    offs: &[u32],
    stack: &mut [u32],
    count: usize,
    clause: u32,
    literal: u32,
    answer: &mut [usize],
) -> bool {
    unsafe {
        bc_remove(
            n,
            m,
            lits.as_ptr(),
            lits.len(),
            offs.as_ptr(),
            offs.len(),
            stack.as_mut_ptr(),
            stack.len(),
            count,
            clause,
            literal,
            answer.as_mut_ptr(),
            answer.len(),
        )
    }
}

pub fn next_blocked(n: usize, m: usize, lits: &[u16], offs: &[u32], stack: &[u32], count: usize, answer: &mut [usize]) -> bool {
    unsafe {
        bc_next_blocked(
            n,
            m,
            lits.as_ptr(),
            lits.len(),
            offs.as_ptr(),
            offs.len(),
            stack.as_ptr(),
            stack.len(),
            count,
            answer.as_mut_ptr(),
            answer.len(),
        )
    }
}

pub fn check_stack(n: usize, m: usize, lits: &[u16], offs: &[u32], stack: &[u32], count: usize, answer: &mut [usize]) -> bool {
    unsafe {
        bc_check_stack(
            n,
            m,
            lits.as_ptr(),
            lits.len(),
            offs.as_ptr(),
            offs.len(),
            stack.as_ptr(),
            stack.len(),
            count,
            answer.as_mut_ptr(),
            answer.len(),
        )
    }
}

#[allow(clippy::too_many_arguments)]
pub fn rebuild(n: usize, m: usize, lits: &[u16], offs: &[u32], stack: &[u32], count: usize, vals: &mut [u8], answer: &mut [usize]) -> bool {
    unsafe {
        bc_rebuild(
            n,
            m,
            lits.as_ptr(),
            lits.len(),
            offs.as_ptr(),
            offs.len(),
            stack.as_ptr(),
            stack.len(),
            count,
            vals.as_mut_ptr(),
            vals.len(),
            answer.as_mut_ptr(),
            answer.len(),
        )
    }
}

#[allow(clippy::too_many_arguments)]
pub fn write_saved(
    n: usize,
    m: usize,
    lits: &[u16],
    offs: &[u32],
    stack: &[u32],
    count: usize,
    out: &mut [u8],
    answer: &mut [usize],
) -> bool {
    unsafe {
        bc_write_saved(
            n,
            m,
            lits.as_ptr(),
            lits.len(),
            offs.as_ptr(),
            offs.len(),
            stack.as_ptr(),
            stack.len(),
            count,
            out.as_mut_ptr(),
            out.len(),
            answer.as_mut_ptr(),
            answer.len(),
        )
    }
}

pub fn read_saved(bytes: &[u8], lits: &mut [u16], offs: &mut [u32], stack: &mut [u32], answer: &mut [usize]) -> bool {
    unsafe {
        bc_read_saved(
            bytes.as_ptr(),
            bytes.len(),
            lits.as_mut_ptr(),
            lits.len(),
            offs.as_mut_ptr(),
            offs.len(),
            stack.as_mut_ptr(),
            stack.len(),
            answer.as_mut_ptr(),
            answer.len(),
        )
    }
}
