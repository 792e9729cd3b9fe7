//! The six functions of `libboard.a`, each behind a safe one. Nothing checks these declarations
//! against the library's source. All the unsafe code there is stands in this file.

/// The tables as bytes; `pack` says which byte is what.
pub const TABLES: usize = 1_271;

/// The values of an answer: as many as the time has parts, since request (iv) six.
pub const VALUES: usize = 6;

/// An answer as bytes: its number and its values, eight bytes each.
pub const ANSWER: usize = 8 * (1 + VALUES);

/// Bytes in which every page has room.
pub const PAGE: usize = 8_704;

/// What a line was answered with; absent values are 0.
#[derive(Clone, Copy, Debug, PartialEq, Eq)]
pub struct Reply {
    pub number: u64,
    pub values: [u64; VALUES],
}

impl Reply {
    /// An answer with one value.
    pub fn new(number: u64, value: u64) -> Reply {
        let mut values = [0; VALUES];
        values[0] = value;
        Reply { number, values }
    }

    pub fn of_bytes(bytes: &[u8; ANSWER]) -> Reply {
        let mut words = [0; 1 + VALUES];
        for (word, part) in words.iter_mut().zip(bytes.chunks_exact(8)) {
            let mut eight = [0; 8];
            eight.copy_from_slice(part);
            *word = u64::from_le_bytes(eight);
        }
        let [number, values @ ..] = words;
        Reply { number, values }
    }

    pub fn bytes(&self) -> [u8; ANSWER] {
        let mut bytes = [0; ANSWER];
        let words = std::iter::once(&self.number).chain(&self.values);
        for (part, word) in bytes.chunks_exact_mut(8).zip(words) {
            part.copy_from_slice(&word.to_le_bytes());
        }
        bytes
    }
}

/// How many bytes the output of a text has in all, and how many of them were put.
#[derive(Clone, Copy, Debug, PartialEq, Eq)]
pub struct Counts {
    pub all: u64,
    pub put: u64,
}

mod library {
    extern "C" {
        pub fn board_run(
            text: *const u8,
            text_len: usize,
            out: *mut u8,
            out_len: usize,
            answer: *mut u8,
            answer_len: usize,
        ) -> u64;
        pub fn board_ask(
            tables: *mut u8,
            tables_len: usize,
            line: *const u8,
            line_len: usize,
            page: *mut u8,
            page_len: usize,
            answer: *mut u8,
            answer_len: usize,
        ) -> u64;
        pub fn board_sound(tables: *const u8, tables_len: usize) -> u64;
        pub fn board_read(
            page: *const u8,
            page_len: usize,
            tables: *mut u8,
            tables_len: usize,
            answer: *mut u8,
            answer_len: usize,
        ) -> u64;
        pub fn board_find(
            original: *const u8,
            original_len: usize,
            copy: *const u8,
            copy_len: usize,
            key: *const u8,
            key_len: usize,
            occurrence: u64,
            answer: *mut u8,
            answer_len: usize,
        ) -> u64;
        pub fn board_list(
            original: *const u8,
            original_len: usize,
            copy: *const u8,
            copy_len: usize,
            list: *mut u64,
            list_len: usize,
            answer: *mut u8,
            answer_len: usize,
        ) -> u64;
    }
}

/// Runs a whole console text, into `out` as far as it fits; none for a text that the library does
/// not take.
pub fn run(text: &[u8], out: &mut [u8]) -> Option<Counts> {
    let mut answer = [0; ANSWER];
    if run_bytes(text, out, &mut answer) != 0 {
        return None;
    }
    let [all, put, ..] = Reply::of_bytes(&answer).values;
    Some(Counts { all, put })
}

/// The same with an answer of any length, and the number that is handed back.
pub fn run_bytes(text: &[u8], out: &mut [u8], answer: &mut [u8]) -> u64 {
    // The pointers and lengths are those of slices, and two of them are lent alone, so that no two
    // overlap.
    unsafe {
        library::board_run(
            text.as_ptr(),
            text.len(),
            out.as_mut_ptr(),
            out.len(),
            answer.as_mut_ptr(),
            answer.len(),
        )
    }
}

/// One console line on tables, which become the tables after it.
pub fn ask(tables: &mut [u8], line: &[u8], page: &mut [u8]) -> Reply {
    let mut answer = [0; ANSWER];
    ask_bytes(tables, line, page, &mut answer);
    Reply::of_bytes(&answer)
}

/// The same with an answer of any length, and the number that is handed back.
pub fn ask_bytes(tables: &mut [u8], line: &[u8], page: &mut [u8], answer: &mut [u8]) -> u64 {
    // The pointers and lengths are those of slices, and three of them are lent alone, so that no
    // two overlap.
    unsafe {
        library::board_ask(
            tables.as_mut_ptr(),
            tables.len(),
            line.as_ptr(),
            line.len(),
            page.as_mut_ptr(),
            page.len(),
            answer.as_mut_ptr(),
            answer.len(),
        )
    }
}

/// Whether these bytes are sound tables; none where the library says neither.
pub fn sound(tables: &[u8]) -> Option<bool> {
    // The pointer and the length are those of a slice, of which the library only reads.
    match unsafe { library::board_sound(tables.as_ptr(), tables.len()) } {
        0 => Some(false),
        1 => Some(true),
        _ => None,
    }
}

/// A page read back: into tables, or into the smallest ones.
pub fn read(page: &[u8], tables: &mut [u8]) -> Reply {
    let mut answer = [0; ANSWER];
    read_bytes(page, tables, &mut answer);
    Reply::of_bytes(&answer)
}

/// The same with an answer of any length, and the number that is handed back.
pub fn read_bytes(page: &[u8], tables: &mut [u8], answer: &mut [u8]) -> u64 {
    // The pointers and lengths are those of slices, and two of them are lent alone, so that no two
    // overlap.
    unsafe {
        library::board_read(
            page.as_ptr(),
            page.len(),
            tables.as_mut_ptr(),
            tables.len(),
            answer.as_mut_ptr(),
            answer.len(),
        )
    }
}

/// A line of two texts, by its key and occurrence. The values are 0, 0 for the original or 1 for the
/// copy, and where the line begins and ends in it.
pub fn find(original: &[u8], copy: &[u8], key: &[u8], occurrence: u64) -> Reply {
    let mut answer = [0; ANSWER];
    find_bytes(original, copy, key, occurrence, &mut answer);
    Reply::of_bytes(&answer)
}

/// The same with an answer of any length, and the number that is handed back.
pub fn find_bytes(
    original: &[u8],
    copy: &[u8],
    key: &[u8],
    occurrence: u64,
    answer: &mut [u8],
) -> u64 {
    // The pointers and lengths are those of slices, of which the library writes into the last
    // alone, which is lent alone.
    unsafe {
        library::board_find(
            original.as_ptr(),
            original.len(),
            copy.as_ptr(),
            copy.len(),
            key.as_ptr(),
            key.len(),
            occurrence,
            answer.as_mut_ptr(),
            answer.len(),
        )
    }
}

/// The lines of the original that differ in the copy, at the front of a list.
pub fn list(original: &[u8], copy: &[u8], list: &mut [u64]) -> Reply {
    let mut answer = [0; ANSWER];
    list_bytes(original, copy, list, &mut answer);
    Reply::of_bytes(&answer)
}

/// The same with an answer of any length, and the number that is handed back.
pub fn list_bytes(original: &[u8], copy: &[u8], list: &mut [u64], answer: &mut [u8]) -> u64 {
    // The pointers and lengths are those of slices, the places of the list being of eight bytes, and
    // two of them are lent alone, so that no two overlap.
    unsafe {
        library::board_list(
            original.as_ptr(),
            original.len(),
            copy.as_ptr(),
            copy.len(),
            list.as_mut_ptr(),
            list.len(),
            answer.as_mut_ptr(),
            answer.len(),
        )
    }
}
