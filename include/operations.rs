/// Declares the functions of a service's header, whose names start with the prefix, and defines a safe wrapper of each. A wrapper's
/// error is the number of the refusal.
macro_rules! operations {
    ($prefix:literal) => {
        /// The declarations of the header.
        pub mod raw {
            extern "C" {
                #[link_name = concat!($prefix, "_read")]
                pub fn read(sheet: *const u8, sheet_len: usize, atoms: *mut u64, records: *mut u64) -> u32;
                #[link_name = concat!($prefix, "_body")]
                pub fn body(
                    sheet: *const u8,
                    sheet_len: usize,
                    number: u64,
                    positives: *mut u64,
                    offset: *mut u64,
                    length: *mut u64,
                ) -> u32;
                #[link_name = concat!($prefix, "_components")]
                pub fn components(
                    sheet: *const u8,
                    sheet_len: usize,
                    out: *mut u8,
                    out_len: usize,
                    written: *mut u64,
                ) -> u32;
                #[link_name = concat!($prefix, "_default")]
                pub fn default(
                    sheet: *const u8,
                    sheet_len: usize,
                    out: *mut u8,
                    out_len: usize,
                    written: *mut u64,
                ) -> u32;
                #[link_name = concat!($prefix, "_test")]
                pub fn test(sheet: *const u8, sheet_len: usize, sequence: *const u8, sequence_len: usize) -> u32;
                #[link_name = concat!($prefix, "_missing")]
                pub fn missing(
                    sheet: *const u8,
                    sheet_len: usize,
                    sequence: *const u8,
                    sequence_len: usize,
                    out: *mut u8,
                    out_len: usize,
                    written: *mut u64,
                ) -> u32;
                #[link_name = concat!($prefix, "_unfolded")]
                pub fn unfolded(
                    sheet: *const u8,
                    sheet_len: usize,
                    sequence: *const u8,
                    sequence_len: usize,
                    out: *mut u32,
                    out_len: usize,
                    written: *mut u64,
                ) -> u32;
                #[link_name = concat!($prefix, "_clauses")]
                pub fn clauses(
                    sheet: *const u8,
                    sheet_len: usize,
                    sequence: *const u8,
                    sequence_len: usize,
                    out: *mut i32,
                    out_len: usize,
                    written: *mut u64,
                    variables: *mut u64,
                    clauses: *mut u64,
                ) -> u32;
                #[link_name = concat!($prefix, "_lparse")]
                pub fn lparse(
                    sheet: *const u8,
                    sheet_len: usize,
                    out: *mut u8,
                    out_len: usize,
                    written: *mut u64,
                ) -> u32;
                #[link_name = concat!($prefix, "_count")]
                pub fn count(sheet: *const u8, sheet_len: usize, count: *mut u64, verdict: *mut u64) -> u32;
            }
        }

        /// The numbers of written atoms and of records.
        pub fn read(sheet: &[u8]) -> Result<[u64; 2], u32> {
            let [mut atoms, mut records] = [0; 2];
            let status = unsafe { raw::read(sheet.as_ptr(), sheet.len(), &mut atoms, &mut records) };
            answer(status, [atoms, records])
        }

        /// The body of one record: its number of positive atoms, its offset in the sheet and its length.
        pub fn body(sheet: &[u8], number: u64) -> Result<[u64; 3], u32> {
            let [mut positives, mut offset, mut length] = [0; 3];
            let (p, o, l) = (&mut positives, &mut offset, &mut length);
            let status = unsafe { raw::body(sheet.as_ptr(), sheet.len(), number, p, o, l) };
            answer(status, [positives, offset, length])
        }

        /// Writes for each atom, fresh ones included, the smallest atom of its component: the number of bytes.
        pub fn components(sheet: &[u8], out: &mut [u8]) -> Result<[u64; 1], u32> {
            let mut written = 0;
            let (o, room) = (out.as_mut_ptr(), out.len());
            let status = unsafe { raw::components(sheet.as_ptr(), sheet.len(), o, room, &mut written) };
            answer(status, [written])
        }

        /// Writes the default sequence, which names the fresh atoms, too: the number of bytes.
        pub fn default_sequence(sheet: &[u8], out: &mut [u8]) -> Result<[u64; 1], u32> {
            let mut written = 0;
            let (o, room) = (out.as_mut_ptr(), out.len());
            let status = unsafe { raw::default(sheet.as_ptr(), sheet.len(), o, room, &mut written) };
            answer(status, [written])
        }

        /// Tests a sequence.
        pub fn test(sheet: &[u8], sequence: &[u8]) -> Result<(), u32> {
            let (s, q) = (sheet.as_ptr(), sequence.as_ptr());
            answer(unsafe { raw::test(s, sheet.len(), q, sequence.len()) }, ())
        }

        /// Writes the shortest chain that the sequence lacks, fresh atoms included: the number of its atoms.
        pub fn missing(sheet: &[u8], sequence: &[u8], out: &mut [u8]) -> Result<[u64; 1], u32> {
            let mut written = 0;
            let (s, q, o, room) = (sheet.as_ptr(), sequence.as_ptr(), out.as_mut_ptr(), out.len());
            let status = unsafe { raw::missing(s, sheet.len(), q, sequence.len(), o, room, &mut written) };
            answer(status, [written])
        }

        /// Writes the unfolded program: the number of words.
        pub fn unfolded(sheet: &[u8], sequence: &[u8], out: &mut [u32]) -> Result<[u64; 1], u32> {
            let mut written = 0;
            let (s, q, o, room) = (sheet.as_ptr(), sequence.as_ptr(), out.as_mut_ptr(), out.len());
            let status = unsafe { raw::unfolded(s, sheet.len(), q, sequence.len(), o, room, &mut written) };
            answer(status, [written])
        }

        /// Writes the clauses: the numbers of words, of variables and of clauses.
        pub fn clauses(sheet: &[u8], sequence: &[u8], out: &mut [i32]) -> Result<[u64; 3], u32> {
            let [mut written, mut variables, mut clauses] = [0; 3];
            let (s, q, o, room) = (sheet.as_ptr(), sequence.as_ptr(), out.as_mut_ptr(), out.len());
            let (w, v, c) = (&mut written, &mut variables, &mut clauses);
            let status = unsafe { raw::clauses(s, sheet.len(), q, sequence.len(), o, room, w, v, c) };
            answer(status, [written, variables, clauses])
        }

        /// Writes the sheet as text in the format of lparse: the number of bytes.
        pub fn lparse(sheet: &[u8], out: &mut [u8]) -> Result<[u64; 1], u32> {
            let mut written = 0;
            let (o, room) = (out.as_mut_ptr(), out.len());
            let status = unsafe { raw::lparse(sheet.as_ptr(), sheet.len(), o, room, &mut written) };
            answer(status, [written])
        }

        /// The number of settled states, and the verdict: 0 for none, 1 for clear, 2 for split.
        pub fn count(sheet: &[u8]) -> Result<[u64; 2], u32> {
            let [mut count, mut verdict] = [0; 2];
            let status = unsafe { raw::count(sheet.as_ptr(), sheet.len(), &mut count, &mut verdict) };
            answer(status, [count, verdict])
        }

        fn answer<A>(status: u32, answer: A) -> Result<A, u32> {
            if status == 0 {
                Ok(answer)
            } else {
                Err(status)
            }
        }
    };
}
