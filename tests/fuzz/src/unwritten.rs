//! For valgrind: a buffer that is allocated for itself, exactly as long as it says, and was never written before the
//! call.
use dt_parser_ffi::Lent;

pub struct Unwritten {
    numbers: Vec<u32>,
    len: usize,
}

impl Unwritten {
    pub fn new(len: usize) -> Self {
        Self { numbers: Vec::with_capacity(len), len }
    }

    pub fn lend(&mut self) -> Lent {
        Lent { numbers: self.numbers.as_mut_ptr(), len: self.len }
    }

    /// After the call: these rows and then zero.
    ///
    /// # Safety
    ///
    /// The call wrote every number of the buffer. Valgrind sees here if it did not.
    pub unsafe fn holds(&mut self, rows: &[u32]) -> bool {
        unsafe { self.numbers.set_len(self.len) }
        self.numbers.strip_prefix(rows).is_some_and(|rest| rest.iter().all(|&x| x == 0))
    }
}
