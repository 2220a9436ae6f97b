//! A stack of our own, filled with a pattern, on which a call is run: the words that no longer have
//! the pattern are those that it used.

use std::arch::asm;

const WORDS: usize = 256 * 1024 / 8;

/// Two of them, as a call may write a word that one of them has.
const PATTERNS: [u64; 2] = [0x5AC3_5AC3_5AC3_5AC3, 0xA53C_A53C_A53C_A53C];

/// The arguments of a C call as words: six go in registers, two on the stack.
pub type Arguments = [u64; 8];

const ON_STACK: usize = 2;

pub struct Painted {
    words: Vec<u64>,
}

impl Painted {
    pub fn new() -> Self {
        Painted {
            words: vec![0; WORDS],
        }
    }

    /// The bytes of stack that the call uses, from its return address down to the lowest word
    /// written, and what it answers.
    ///
    /// # Safety
    /// The function is a C function that may be called with the arguments, and does not unwind.
    pub unsafe fn measure(&mut self, function: *const (), arguments: &Arguments) -> (usize, u64) {
        let runs = PATTERNS.map(|pattern| {
            self.words.fill(pattern);
            // SAFETY: as the caller says; the stack is ours alone.
            let answer = unsafe { call_on(self.top(), function, arguments) };
            (self.used(pattern), answer)
        });
        assert_eq!(
            runs[0].1, runs[1].1,
            "the answer depends on unwritten stack"
        );
        (runs[0].0.max(runs[1].0), runs[0].1)
    }

    /// The end of the words, at a multiple of 16.
    fn top(&mut self) -> *mut u64 {
        let end = self.words.as_mut_ptr_range().end;
        end.wrapping_byte_sub(end.addr() % 16)
    }

    fn used(&mut self, pattern: u64) -> usize {
        let lowest = self.words.iter().position(|&word| word != pattern);
        let lowest = lowest.expect("the return address is written");
        assert!(lowest > 0, "the call uses the whole stack");
        let bytes = self.top().addr() - self.words[lowest..].as_ptr().addr();
        bytes - 8 * ON_STACK
    }
}

/// Calls a C function with the stack at `top`, a multiple of 16.
unsafe fn call_on(top: *mut u64, function: *const (), arguments: &Arguments) -> u64 {
    let [a, b, c, d, e, f, ..] = *arguments;
    let answer;
    // SAFETY: the C call keeps r12, so the stack is the old one again behind it.
    unsafe {
        asm!(
            "mov r12, rsp",
            "mov rsp, {top}",
            "push qword ptr [rax + 56]",
            "push qword ptr [rax + 48]",
            "call {function}",
            "mov rsp, r12",
            top = in(reg) top,
            function = in(reg) function,
            in("rdi") a, in("rsi") b, in("rdx") c, in("rcx") d, in("r8") e, in("r9") f,
            inout("rax") arguments.as_ptr() => answer,
            out("r12") _,
            clobber_abi("C"),
        );
    }
    answer
}

#[cfg(test)]
mod tests {
    use super::*;
    use std::hint::black_box;

    extern "C" fn in_order(a: u64, b: u64, c: u64, d: u64, e: u64, f: u64, g: u64, h: u64) -> u64 {
        let arguments = [a, b, c, d, e, f, g, h];
        arguments.iter().fold(0, |sum, digit| 10 * sum + digit)
    }

    /// Holds so many bytes.
    extern "C" fn holds<const BYTES: usize>() -> u64 {
        let bytes = black_box([1u8; BYTES]);
        u64::from(bytes[BYTES / 2])
    }

    fn measured(function: *const (), arguments: Arguments) -> (usize, u64) {
        // SAFETY: the functions of this module take any words.
        unsafe { Painted::new().measure(function, &arguments) }
    }

    #[test]
    fn all_arguments_get_through() {
        let function = in_order as *const ();
        assert_eq!(measured(function, [1, 2, 3, 4, 5, 6, 7, 8]).1, 12_345_678);
    }

    #[test]
    fn what_a_call_holds_is_counted() {
        let (little, answer) = measured(holds::<64> as *const (), [0; 8]);
        let (much, _) = measured(holds::<8192> as *const (), [0; 8]);
        assert_eq!(answer, 1);
        assert!((64..1024).contains(&little), "{little}");
        assert!((8192..32768).contains(&much), "{much}");
    }
}
