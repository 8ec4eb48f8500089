//! The library's functions, and their buffers. Nothing else here is `unsafe`.

/// What a call answers beside its buffers: `struct lnorm_answer` of `include/lnorm.h`.
#[repr(C)]
#[derive(Clone, Copy)]
struct Answer {
    status: u8,
    output_size: usize,
    faults_size: usize,
}

// These are the declarations of `include/lnorm.h`. Nothing compares the two.
extern "C" {
    fn lnorm_run(
        words: *const u8,
        words_size: usize,
        input: *const u8,
        input_size: usize,
        output: *mut u8,
        output_room: usize,
        faults: *mut u8,
        faults_room: usize,
    ) -> Answer;
    fn lnorm_whole(
        words: *const u8,
        words_size: usize,
        input: *const u8,
        input_size: usize,
        output: *mut u8,
        output_room: usize,
        faults: *mut u8,
        faults_room: usize,
    ) -> Answer;
    fn lnorm_explain(
        words: *const u8,
        words_size: usize,
        grammar: *const u8,
        grammar_size: usize,
        lines: *const u8,
        lines_size: usize,
        output: *mut u8,
        output_room: usize,
        faults: *mut u8,
        faults_room: usize,
    ) -> Answer;
    fn lnorm_ambiguous(
        words: *const u8,
        words_size: usize,
        grammar: *const u8,
        grammar_size: usize,
        lines: *const u8,
        lines_size: usize,
        output: *mut u8,
        output_room: usize,
        faults: *mut u8,
        faults_room: usize,
    ) -> Answer;
    fn lnorm_form_version() -> u32;
    fn lnorm_toolchain(line: *mut u8, room: usize) -> usize;
}

/// What the statuses mean.
#[derive(Clone, Copy, Debug, PartialEq, Eq)]
pub(crate) enum Status {
    Done,
    Fault,
    Refused,
    NoMemory,
}

impl Status {
    fn of(status: u8) -> Status {
        match status {
            0 => Status::Done,
            1 => Status::Fault,
            2 => Status::Refused,
            _ => Status::NoMemory,
        }
    }
}

/// Lowers a grammar: the status, the output and the line of faults.
pub(crate) fn run(words: &[u8], input: &[u8]) -> (Status, Vec<u8>, Vec<u8>) {
    // The lines are mostly shorter than a quarter of the tree.
    with_buffers(input.len() / 4, |output, faults| {
        // SAFETY: each pointer and size are those of one slice, which is borrowed for the call, those of the buffers mutably.
        // A slice's pointer is not null. The allocator is that of the C library, and no call is made in a signal handler.
        unsafe {
            lnorm_run(
                words.as_ptr(),
                words.len(),
                input.as_ptr(),
                input.len(),
                output.as_mut_ptr(),
                output.len(),
                faults.as_mut_ptr(),
                faults.len(),
            )
        }
    })
}

/// Lowers a grammar, to JSON: the status, the output and the line of faults.
pub(crate) fn whole(words: &[u8], input: &[u8]) -> (Status, Vec<u8>, Vec<u8>) {
    // The JSON of the examples has two to five times the bytes of the tree.
    with_buffers(input.len().saturating_mul(6), |output, faults| {
        // SAFETY: as above.
        unsafe {
            lnorm_whole(
                words.as_ptr(),
                words.len(),
                input.as_ptr(),
                input.len(),
                output.as_mut_ptr(),
                output.len(),
                faults.as_mut_ptr(),
                faults.len(),
            )
        }
    })
}

/// Goes back from a derivation tree: the status, the output and the line of faults.
pub(crate) fn explain(words: &[u8], grammar: &[u8], lines: &[u8]) -> (Status, Vec<u8>, Vec<u8>) {
    with_buffers(lines.len(), |output, faults| {
        // SAFETY: as above.
        unsafe {
            lnorm_explain(
                words.as_ptr(),
                words.len(),
                grammar.as_ptr(),
                grammar.len(),
                lines.as_ptr(),
                lines.len(),
                output.as_mut_ptr(),
                output.len(),
                faults.as_mut_ptr(),
                faults.len(),
            )
        }
    })
}

/// Goes back from two derivation trees: the status, the output and the line of faults.
pub(crate) fn ambiguous(words: &[u8], grammar: &[u8], lines: &[u8]) -> (Status, Vec<u8>, Vec<u8>) {
    with_buffers(lines.len() + 1024, |output, faults| {
        // SAFETY: as above.
        unsafe {
            lnorm_ambiguous(
                words.as_ptr(),
                words.len(),
                grammar.as_ptr(),
                grammar.len(),
                lines.as_ptr(),
                lines.len(),
                output.as_mut_ptr(),
                output.len(),
                faults.as_mut_ptr(),
                faults.len(),
            )
        }
    })
}

/// The version of the forms that the library reads and writes.
pub fn form_version() -> u32 {
    // SAFETY: the function takes nothing.
    unsafe { lnorm_form_version() }
}

/// The toolchain that the sources are proved with: a constant of the sources, whatever built the library.
pub fn toolchain() -> String {
    let mut line = vec![0; 256];
    // SAFETY: the pointer and the size are those of one slice, which is borrowed mutably for the call.
    let size = unsafe { lnorm_toolchain(line.as_mut_ptr(), line.len()) };
    line.truncate(size);
    String::from_utf8_lossy(&line).into_owned()
}

/// Calls with that much room for the output; if a buffer was too small, once more, with the sizes that the first call answered.
fn with_buffers<F: Fn(&mut [u8], &mut [u8]) -> Answer>(room: usize, call: F) -> (Status, Vec<u8>, Vec<u8>) {
    let (mut output, mut faults) = (vec![0; room], vec![0; 1024]);
    let mut answer = call(&mut output, &mut faults);
    if answer.output_size > output.len() || answer.faults_size > faults.len() {
        output.resize(answer.output_size, 0);
        faults.resize(answer.faults_size, 0);
        answer = call(&mut output, &mut faults);
    }
    output.truncate(answer.output_size);
    faults.truncate(answer.faults_size);
    (Status::of(answer.status), output, faults)
}
