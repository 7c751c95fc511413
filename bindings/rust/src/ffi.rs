//! The library's functions, behind safe ones: the only unsafe code of the crate. Nothing checks these declarations but a
//! reader, beside include/greenblr.h.

mod c {
    extern "C" {
        pub fn greenblr_version() -> u32;
        pub fn greenblr_read(
            request: *const u8,
            request_length: usize,
            dictionary: *const u8,
            dictionary_length: usize,
            statements: *mut u32,
            statements_length: usize,
            parameters: *mut u32,
            parameters_length: usize,
            contexts: *mut u32,
            contexts_length: usize,
            answer: *mut usize,
        ) -> u32;
        pub fn greenblr_evaluate(
            request: *const u8,
            request_length: usize,
            dictionary: *const u8,
            dictionary_length: usize,
            number: usize,
            images: *const u8,
            images_length: usize,
            records: *const u8,
            records_length: usize,
            runs: *const u8,
            runs_length: usize,
        ) -> u64;
        pub fn greenblr_evaluate_value(
            request: *const u8,
            request_length: usize,
            dictionary: *const u8,
            dictionary_length: usize,
            row: usize,
            images: *const u8,
            images_length: usize,
            records: *const u8,
            records_length: usize,
            runs: *const u8,
            runs_length: usize,
            answer: *mut i64,
        ) -> u64;
        pub fn greenblr_explain(
            request: *const u8,
            request_length: usize,
            dictionary: *const u8,
            dictionary_length: usize,
            number: usize,
            images: *const u8,
            images_length: usize,
            records: *const u8,
            records_length: usize,
            runs: *const u8,
            runs_length: usize,
            tests: *mut u32,
            tests_length: usize,
        ) -> u64;
        pub fn greenblr_store_make(
            dictionary: *const u8,
            dictionary_length: usize,
            buffer: *mut u8,
            buffer_length: usize,
            relation: u32,
            answer: *mut usize,
        ) -> u32;
        pub fn greenblr_store_add(
            dictionary: *const u8,
            dictionary_length: usize,
            buffer: *mut u8,
            buffer_length: usize,
            entry: *const u8,
            entry_length: usize,
            answer: *mut usize,
        ) -> u32;
        pub fn greenblr_store_erase(
            dictionary: *const u8,
            dictionary_length: usize,
            buffer: *mut u8,
            buffer_length: usize,
            position: usize,
            answer: *mut usize,
        ) -> u32;
        pub fn greenblr_store_replace(
            dictionary: *const u8,
            dictionary_length: usize,
            buffer: *mut u8,
            buffer_length: usize,
            position: usize,
            entry: *const u8,
            entry_length: usize,
            answer: *mut usize,
        ) -> u32;
        pub fn greenblr_store_read(
            dictionary: *const u8,
            dictionary_length: usize,
            buffer: *const u8,
            buffer_length: usize,
            answer: *mut usize,
        ) -> u32;
        pub fn greenblr_store_find(
            dictionary: *const u8,
            dictionary_length: usize,
            buffer: *const u8,
            buffer_length: usize,
            position: usize,
            answer: *mut usize,
        ) -> u32;
    }
}

/// The three numbers of an answer, or the number of a refusal and its place.
pub type Answered = Result<[usize; 3], (u32, u64)>;

fn answered(number: u32, answer: [usize; 3]) -> Answered {
    match number {
        0 => Ok(answer),
        _ => Err((number, answer[0] as u64)),
    }
}

// SAFETY of all calls below: each slice passes as its pointer and its length, and is borrowed for the call alone; those that are
// written are borrowed mutably, so that none overlaps another; `answer` has three numbers; the library keeps no pointer and
// answers for any bytes and any lengths.

pub fn version() -> u32 {
    // SAFETY: it takes nothing.
    unsafe { c::greenblr_version() }
}

pub fn read(
    request: &[u8],
    dictionary: &[u8],
    statements: &mut [u32],
    parameters: &mut [u32],
    contexts: &mut [u32],
) -> Answered {
    let mut answer = [0; 3];
    // SAFETY: as above.
    let number = unsafe {
        c::greenblr_read(
            request.as_ptr(),
            request.len(),
            dictionary.as_ptr(),
            dictionary.len(),
            statements.as_mut_ptr(),
            statements.len(),
            parameters.as_mut_ptr(),
            parameters.len(),
            contexts.as_mut_ptr(),
            contexts.len(),
            answer.as_mut_ptr(),
        )
    };
    answered(number, answer)
}

pub fn evaluate(
    request: &[u8],
    dictionary: &[u8],
    number: usize,
    images: &[u8],
    records: &[u8],
    runs: &[u8],
) -> u64 {
    // SAFETY: as above.
    unsafe {
        c::greenblr_evaluate(
            request.as_ptr(),
            request.len(),
            dictionary.as_ptr(),
            dictionary.len(),
            number,
            images.as_ptr(),
            images.len(),
            records.as_ptr(),
            records.len(),
            runs.as_ptr(),
            runs.len(),
        )
    }
}

/// The number that is given, and the three that are written.
pub fn evaluate_value(
    request: &[u8],
    dictionary: &[u8],
    row: usize,
    images: &[u8],
    records: &[u8],
    runs: &[u8],
) -> (u64, [i64; 3]) {
    let mut answer = [0; 3];
    // SAFETY: as above.
    let given = unsafe {
        c::greenblr_evaluate_value(
            request.as_ptr(),
            request.len(),
            dictionary.as_ptr(),
            dictionary.len(),
            row,
            images.as_ptr(),
            images.len(),
            records.as_ptr(),
            records.len(),
            runs.as_ptr(),
            runs.len(),
            answer.as_mut_ptr(),
        )
    };
    (given, answer)
}

/// The number that is given; the tests stand in the table.
pub fn explain(
    request: &[u8],
    dictionary: &[u8],
    number: usize,
    images: &[u8],
    records: &[u8],
    runs: &[u8],
    tests: &mut [u32],
) -> u64 {
    // SAFETY: as above.
    unsafe {
        c::greenblr_explain(
            request.as_ptr(),
            request.len(),
            dictionary.as_ptr(),
            dictionary.len(),
            number,
            images.as_ptr(),
            images.len(),
            records.as_ptr(),
            records.len(),
            runs.as_ptr(),
            runs.len(),
            tests.as_mut_ptr(),
            tests.len(),
        )
    }
}

pub fn store_make(dictionary: &[u8], buffer: &mut [u8], relation: u32) -> Answered {
    let mut answer = [0; 3];
    // SAFETY: as above.
    let number = unsafe {
        c::greenblr_store_make(
            dictionary.as_ptr(),
            dictionary.len(),
            buffer.as_mut_ptr(),
            buffer.len(),
            relation,
            answer.as_mut_ptr(),
        )
    };
    answered(number, answer)
}

pub fn store_add(dictionary: &[u8], buffer: &mut [u8], entry: &[u8]) -> Answered {
    let mut answer = [0; 3];
    // SAFETY: as above.
    let number = unsafe {
        c::greenblr_store_add(
            dictionary.as_ptr(),
            dictionary.len(),
            buffer.as_mut_ptr(),
            buffer.len(),
            entry.as_ptr(),
            entry.len(),
            answer.as_mut_ptr(),
        )
    };
    answered(number, answer)
}

pub fn store_erase(dictionary: &[u8], buffer: &mut [u8], position: usize) -> Answered {
    let mut answer = [0; 3];
    // SAFETY: as above.
    let number = unsafe {
        c::greenblr_store_erase(
            dictionary.as_ptr(),
            dictionary.len(),
            buffer.as_mut_ptr(),
            buffer.len(),
            position,
            answer.as_mut_ptr(),
        )
    };
    answered(number, answer)
}

pub fn store_replace(
    dictionary: &[u8],
    buffer: &mut [u8],
    position: usize,
    entry: &[u8],
) -> Answered {
    let mut answer = [0; 3];
    // SAFETY: as above.
    let number = unsafe {
        c::greenblr_store_replace(
            dictionary.as_ptr(),
            dictionary.len(),
            buffer.as_mut_ptr(),
            buffer.len(),
            position,
            entry.as_ptr(),
            entry.len(),
            answer.as_mut_ptr(),
        )
    };
    answered(number, answer)
}

pub fn store_read(dictionary: &[u8], buffer: &[u8]) -> Answered {
    let mut answer = [0; 3];
    // SAFETY: as above.
    let number = unsafe {
        c::greenblr_store_read(
            dictionary.as_ptr(),
            dictionary.len(),
            buffer.as_ptr(),
            buffer.len(),
            answer.as_mut_ptr(),
        )
    };
    answered(number, answer)
}

pub fn store_find(dictionary: &[u8], buffer: &[u8], position: usize) -> Answered {
    let mut answer = [0; 3];
    // SAFETY: as above.
    let number = unsafe {
        c::greenblr_store_find(
            dictionary.as_ptr(),
            dictionary.len(),
            buffer.as_ptr(),
            buffer.len(),
            position,
            answer.as_mut_ptr(),
        )
    };
    answered(number, answer)
}
