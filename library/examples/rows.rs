//! Writes the rows of a query on a document, as the program does, over a safe wrapper of the library for C.
//!
//!     rustc -O rows.rs -L FOLDER_OF_LIBREMATCH
//!     ./rows failed.query auth.log

mod rematch {
    use std::ffi::c_void;

    #[repr(C)]
    struct Slot(*mut c_void, bool);

    #[repr(C)]
    struct Text {
        length: usize,
        bytes: [u8; 248],
    }

    #[link(name = "rematch")]
    extern "C" {
        fn rematch_compile(text: *const u8, length: usize, query: *mut Slot, note: *mut Text) -> u32;
        fn rematch_variables(query: *mut Slot, count: *mut usize) -> u32;
        fn rematch_variable(query: *mut Slot, place: usize, name: *mut Text) -> u32;
        fn rematch_open(query: *mut Slot, document: *const u8, length: usize, options: *const c_void, rows: *mut Slot, note: *mut Text) -> u32;
        fn rematch_fill(rows: *mut Slot, out: *mut u32, room: usize, most: usize, given: *mut usize) -> u32;
        fn rematch_close(slot: *mut Slot);
    }

    /// A slot in a place of its own, which is closed when it is dropped. It stays on its thread.
    struct Owned(Box<Slot>);

    impl Owned {
        fn empty() -> Owned {
            Owned(Box::new(Slot(std::ptr::null_mut(), false)))
        }
    }

    impl Drop for Owned {
        fn drop(&mut self) {
            unsafe { rematch_close(&mut *self.0) }
        }
    }

    /// Why a query or a document is refused: the program's exit status and its note.
    #[derive(Debug)]
    pub struct Refused {
        pub status: u32,
        pub note: String,
    }

    fn ended(status: u32, note: &Text) -> Result<(), Refused> {
        let note = String::from_utf8_lossy(&note.bytes[..note.length]).into_owned();
        if status == 0 { Ok(()) } else { Err(Refused { status, note }) }
    }

    /// A compiled query.
    pub struct Query(Owned);

    impl Query {
        pub fn new(text: &[u8]) -> Result<Query, Refused> {
            let (mut query, mut note) = (Owned::empty(), Text { length: 0, bytes: [0; 248] });
            let status = unsafe { rematch_compile(text.as_ptr(), text.len(), &mut *query.0, &mut note) };
            ended(status, &note).map(|()| Query(query))
        }

        pub fn variables(&mut self) -> Vec<String> {
            let (mut count, mut name) = (0, Text { length: 0, bytes: [0; 248] });
            unsafe { rematch_variables(&mut *self.0.0, &mut count) };
            (0..count).map(|place| {
                unsafe { rematch_variable(&mut *self.0.0, place, &mut name) };
                String::from_utf8_lossy(&name.bytes[..name.length]).into_owned()
            }).collect()
        }

        /// Reads a document; its rows keep what they need, so the query and the document may go.
        pub fn rows(&mut self, document: &[u8]) -> Result<Rows, Refused> {
            let (mut rows, mut note) = (Owned::empty(), Text { length: 0, bytes: [0; 248] });
            let width = 2 * self.variables().len();
            let status = unsafe {
                rematch_open(&mut *self.0.0, document.as_ptr(), document.len(), std::ptr::null(), &mut *rows.0, &mut note)
            };
            ended(status, &note).map(|()| Rows { rows, width })
        }
    }

    /// Rows to come, each with its spans in the order of the variables.
    pub struct Rows {
        rows: Owned,
        width: usize,
    }

    impl Iterator for Rows {
        type Item = Vec<Option<(u32, u32)>>;

        fn next(&mut self) -> Option<Self::Item> {
            let (mut out, mut given) = (vec![0; self.width], 0);
            let status = unsafe { rematch_fill(&mut *self.rows.0, out.as_mut_ptr(), out.len(), 1, &mut given) };
            (status == 0 && given == 1).then(|| {
                out.chunks(2).map(|span| (span[0] != u32::MAX).then_some((span[0], span[1]))).collect()
            })
        }
    }
}

fn main() -> Result<(), Box<dyn std::error::Error>> {
    let words: Vec<String> = std::env::args().collect();
    let (text, document) = (std::fs::read(&words[1])?, std::fs::read(&words[2])?);
    let mut query = rematch::Query::new(&text).map_err(|refused| refused.note)?;
    let names = query.variables();
    let rows = query.rows(&document).map_err(|refused| format!("{}, status {}", refused.note, refused.status))?;
    for row in rows {
        let spans = names.iter().zip(row).map(|(name, span)| match span {
            Some((start, end)) => format!("{name}={start}-{end}"),
            None => format!("{name}=-"),
        });
        let line = spans.collect::<Vec<_>>().join(" ");
        println!("{}", if line.is_empty() { "()" } else { &line });
    }
    Ok(())
}
