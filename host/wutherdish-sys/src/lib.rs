//! The C calls of Wutherdish, as include/wutherdish.h declares them. That file says what a call takes and what
//! it leaves; the crate `wutherdish` has safe calls over these.

/// The length of an answer in bytes.
pub const ANSWER: usize = 114;

/// A peer buffer of this many bytes or more is enough: 255 peers of 32 bytes.
pub const PEER_BUFFER: usize = 8_160;

/// The version of the calls that are declared here: their names, parameters and results.
pub const ABI: u8 = 1;

/// The version of the bytes that they are lent and answer with. 2 is for point records with the peers of a map first.
pub const FORMAT: u8 = 2;

#[link(name = "wutherdish", kind = "static")]
unsafe extern "C" {
    /// Verifies a point.
    ///
    /// # Safety
    ///
    /// No pointer is null, not even with the length 0; each has as many bytes after it as its length says; what is
    /// written, the peer buffer and the answer, overlaps neither each other nor the rest.
    pub unsafe fn wutherdish_verify(
        settings: *const u8,
        settings_len: usize,
        schedule: *const u8,
        schedule_len: usize,
        record: *const u8,
        record_len: usize,
        peers: *mut u8,
        peers_len: usize,
        answer: *mut [u8; ANSWER],
    ) -> u8;

    /// Judges a point by a list.
    ///
    /// # Safety
    ///
    /// As of [`wutherdish_verify`].
    pub unsafe fn wutherdish_judge(
        settings: *const u8,
        settings_len: usize,
        schedule: *const u8,
        schedule_len: usize,
        record: *const u8,
        record_len: usize,
        leader: u8,
        presence: u8,
        list: *const u8,
        list_len: usize,
        peers: *mut u8,
        peers_len: usize,
        answer: *mut [u8; ANSWER],
    ) -> u8;

    /// Judges a point by a list, and says all reasons that are set.
    ///
    /// # Safety
    ///
    /// As of [`wutherdish_verify`]; the trail and the count are written too, and the count's pointer is aligned.
    pub unsafe fn wutherdish_trail(
        settings: *const u8,
        settings_len: usize,
        schedule: *const u8,
        schedule_len: usize,
        record: *const u8,
        record_len: usize,
        leader: u8,
        presence: u8,
        list: *const u8,
        list_len: usize,
        peers: *mut u8,
        peers_len: usize,
        trail: *mut u8,
        trail_len: usize,
        rows: *mut u32,
        answer: *mut [u8; ANSWER],
    ) -> u8;

    /// Says which certificate would clear a trans-invalid point.
    ///
    /// # Safety
    ///
    /// As of [`wutherdish_verify`].
    pub unsafe fn wutherdish_clearing(
        settings: *const u8,
        settings_len: usize,
        schedule: *const u8,
        schedule_len: usize,
        record: *const u8,
        record_len: usize,
        leader: u8,
        presence: u8,
        list: *const u8,
        list_len: usize,
        answer: *mut [u8; 69],
    ) -> u8;

    /// Says which reasons the network can force by the order of the entries.
    ///
    /// # Safety
    ///
    /// As of [`wutherdish_verify`]; the output and the count are written, and the count's pointer is aligned.
    pub unsafe fn wutherdish_force(
        settings: *const u8,
        settings_len: usize,
        schedule: *const u8,
        schedule_len: usize,
        record: *const u8,
        record_len: usize,
        leader: u8,
        presence: u8,
        list: *const u8,
        list_len: usize,
        out: *mut u8,
        out_len: usize,
        rows: *mut u32,
    ) -> u8;

    /// Opens a book in a slice.
    ///
    /// # Safety
    ///
    /// As of [`wutherdish_verify`]; what is written is the book.
    pub unsafe fn wutherdish_open(book: *mut u8, book_len: usize, settings: *const u8, settings_len: usize) -> u8;

    /// Offers a point to the book in a slice.
    ///
    /// # Safety
    ///
    /// As of [`wutherdish_verify`]; the book is written too.
    pub unsafe fn wutherdish_offer(
        book: *mut u8,
        book_len: usize,
        schedule: *const u8,
        schedule_len: usize,
        leader: u8,
        record: *const u8,
        record_len: usize,
        peers: *mut u8,
        peers_len: usize,
        answer: *mut [u8; ANSWER],
    ) -> u8;

    /// Converts a record from the arrangement `pairs` to `columns`.
    ///
    /// # Safety
    ///
    /// As of [`wutherdish_verify`]; what is written is the output and the count, whose pointer is aligned.
    pub unsafe fn wutherdish_pairs_to_columns(
        record: *const u8,
        record_len: usize,
        out: *mut u8,
        out_len: usize,
        written: *mut u32,
    ) -> u8;

    /// Converts a record from the arrangement `columns` to `pairs`.
    ///
    /// # Safety
    ///
    /// As of [`wutherdish_pairs_to_columns`].
    pub unsafe fn wutherdish_columns_to_pairs(
        record: *const u8,
        record_len: usize,
        out: *mut u8,
        out_len: usize,
        written: *mut u32,
    ) -> u8;

    /// Writes the record of a point from its parts.
    ///
    /// # Safety
    ///
    /// As of [`wutherdish_pairs_to_columns`].
    pub unsafe fn wutherdish_write(
        id: *const [u8; 68],
        payload_len: u32,
        payload_bytes: u32,
        includes: *const u8,
        includes_len: usize,
        witness: *const u8,
        witness_len: usize,
        evidence: *const u8,
        evidence_len: usize,
        proof: *const [u8; 102],
        trigger: *const [u8; 102],
        role: u8,
        seq_no: u8,
        is_last: u8,
        time: u64,
        anchor_time: u64,
        out: *mut u8,
        out_len: usize,
        written: *mut u32,
    ) -> u8;

    /// The linked library's ABI, format, major and minor version, a byte each, the ABI in the highest.
    pub safe fn wutherdish_version() -> u32;
}
