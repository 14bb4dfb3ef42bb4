//! What a file is, by what it holds: a shift's journal, a word file, or else a text.

/// The bytes with which every journal begins, and nothing else that is read.
pub const JOURNAL_BEGINNING: &[u8] = b"start capacity ";

/// A journal, be it with the byte-order mark that an editor put before it.
pub fn is_journal(bytes: &[u8]) -> bool {
    let marked = bytes.strip_prefix(b"\xef\xbb\xbf");
    marked.unwrap_or(bytes).starts_with(JOURNAL_BEGINNING)
}

/// A word file has a byte that no text has: the third one of its end word is 0. A torn journal may have it too.
pub fn is_word_file(bytes: &[u8]) -> bool {
    bytes.contains(&0) && !is_journal(bytes)
}
