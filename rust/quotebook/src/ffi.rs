//! The C interface of the proved library. This is the only file with `unsafe` in it.
//!
//! Each function below lends whole slices. A `&mut` slice is not shared, so no buffer that a call
//! writes overlaps another one of the call, and nobody else uses it meanwhile, as the interface asks.
//! The library is proved to stay within what it is lent, whatever the bytes are, and to write to no
//! `const` pointer.

mod c {
    extern "C" {
        pub fn qb_version() -> u32;
        pub fn qb_book_len(n: u32) -> u64;
        pub fn qb_make(book: *mut u8, len: usize, n: u32) -> u8;
        pub fn qb_add_symbol(
            book: *mut u8,
            len: usize,
            symbol: *const u8,
            symbol_len: usize,
            round_lot: u32,
            primary: u8,
        ) -> u8;
        pub fn qb_open_line(book: *mut u8, len: usize, line: u32, letter: u8) -> u8;
        pub fn qb_start_day(book: *mut u8, len: usize) -> u8;
        pub fn qb_end_day(book: *mut u8, len: usize) -> u8;
        pub fn qb_set_allowance(
            book: *mut u8,
            len: usize,
            blocks: u32,
            shares: *const u8,
            shares_len: usize,
        ) -> u8;
        pub fn qb_tick(book: *mut u8, len: usize) -> u8;
        pub fn qb_take_block(
            book: *mut u8,
            len: usize,
            line: u32,
            block: *const u8,
            block_len: usize,
            answer: *mut u8,
            answer_len: usize,
            report: *mut u64,
        ) -> u8;
        pub fn qb_read(
            book: *const u8,
            len: usize,
            symbol: *const u8,
            symbol_len: usize,
            publication: *mut u8,
            publication_len: usize,
        ) -> u8;
        pub fn qb_write_block(
            messages: *const u8,
            messages_len: usize,
            lengths: *const u32,
            count: usize,
            sequence: u32,
            block: *mut u8,
            block_len: usize,
            report: *mut u64,
        ) -> u8;
        pub fn qb_snapshot_len(
            book: *const u8,
            len: usize,
            symbol: *const u8,
            symbol_len: usize,
            size: *mut u64,
        ) -> u8;
        pub fn qb_snapshot(
            book: *const u8,
            len: usize,
            symbol: *const u8,
            symbol_len: usize,
            output: *mut u8,
            output_len: usize,
            size: *mut u64,
        ) -> u8;
        pub fn qb_is_protected(
            book: *const u8,
            len: usize,
            symbol: *const u8,
            symbol_len: usize,
            side: u8,
            price: u64,
            report: *mut u64,
        ) -> u8;
        pub fn qb_convert_len(
            book: *const u8,
            len: usize,
            block: *const u8,
            block_len: usize,
            report: *mut u64,
        ) -> u8;
        pub fn qb_convert(
            book: *const u8,
            len: usize,
            block: *const u8,
            block_len: usize,
            output: *mut u8,
            output_len: usize,
            report: *mut u64,
        ) -> u8;
        pub fn qb_try_order(
            book: *const u8,
            len: usize,
            symbol: *const u8,
            symbol_len: usize,
            side: u8,
            lots: u32,
            steps: *mut u8,
            steps_len: usize,
            report: *mut u64,
        ) -> u8;
        pub fn qb_log_head(log: *const u8, log_len: usize, report: *mut u64) -> u8;
        pub fn qb_replay(
            book: *mut u8,
            len: usize,
            log: *const u8,
            log_len: usize,
            from: usize,
            output: *mut u8,
            output_len: usize,
            report: *mut u64,
        ) -> u8;
        pub fn qb_restore(
            book: *mut u8,
            len: usize,
            log: *const u8,
            log_len: usize,
            output: *mut u8,
            output_len: usize,
            report: *mut u64,
        ) -> u8;
    }
}

pub fn version() -> u32 {
    // SAFETY: no memory is lent.
    unsafe { c::qb_version() }
}

pub fn book_len(n: u32) -> u64 {
    // SAFETY: no memory is lent.
    unsafe { c::qb_book_len(n) }
}

pub fn make(book: &mut [u8], n: u32) -> u8 {
    // SAFETY: pointer and length are one slice's.
    unsafe { c::qb_make(book.as_mut_ptr(), book.len(), n) }
}

pub fn add_symbol(book: &mut [u8], symbol: &[u8], round_lot: u32, primary: u8) -> u8 {
    // SAFETY: each pointer and its length are one slice's; the symbol is only read.
    unsafe {
        c::qb_add_symbol(
            book.as_mut_ptr(),
            book.len(),
            symbol.as_ptr(),
            symbol.len(),
            round_lot,
            primary,
        )
    }
}

pub fn open_line(book: &mut [u8], line: u32, letter: u8) -> u8 {
    // SAFETY: pointer and length are one slice's.
    unsafe { c::qb_open_line(book.as_mut_ptr(), book.len(), line, letter) }
}

pub fn start_day(book: &mut [u8]) -> u8 {
    // SAFETY: pointer and length are one slice's.
    unsafe { c::qb_start_day(book.as_mut_ptr(), book.len()) }
}

pub fn end_day(book: &mut [u8]) -> u8 {
    // SAFETY: pointer and length are one slice's.
    unsafe { c::qb_end_day(book.as_mut_ptr(), book.len()) }
}

pub fn set_allowance(book: &mut [u8], blocks: u32, shares: &[u8]) -> u8 {
    // SAFETY: each pointer and its length are one slice's; the shares are only read.
    unsafe {
        c::qb_set_allowance(
            book.as_mut_ptr(),
            book.len(),
            blocks,
            shares.as_ptr(),
            shares.len(),
        )
    }
}

pub fn tick(book: &mut [u8]) -> u8 {
    // SAFETY: pointer and length are one slice's.
    unsafe { c::qb_tick(book.as_mut_ptr(), book.len()) }
}

/// The result of the call is the report's number too.
pub fn take_block(
    book: &mut [u8],
    line: u32,
    block: &[u8],
    answer: &mut [u8],
    report: &mut [u64; 7],
) -> u8 {
    // SAFETY: each pointer and its length are one slice's; the report has its seven numbers; the
    // block is only read.
    unsafe {
        c::qb_take_block(
            book.as_mut_ptr(),
            book.len(),
            line,
            block.as_ptr(),
            block.len(),
            answer.as_mut_ptr(),
            answer.len(),
            report.as_mut_ptr(),
        )
    }
}

pub fn read(book: &[u8], symbol: &[u8], publication: &mut [u8]) -> u8 {
    // SAFETY: each pointer and its length are one slice's; book and symbol are only read.
    unsafe {
        c::qb_read(
            book.as_ptr(),
            book.len(),
            symbol.as_ptr(),
            symbol.len(),
            publication.as_mut_ptr(),
            publication.len(),
        )
    }
}

/// The result of the call is the report's number too.
pub fn write_block(
    messages: &[u8],
    lengths: &[u32],
    sequence: u32,
    block: &mut [u8],
    report: &mut [u64; 2],
) -> u8 {
    // SAFETY: each pointer and its length are one slice's; the report has its two numbers; messages
    // and lengths are only read.
    unsafe {
        c::qb_write_block(
            messages.as_ptr(),
            messages.len(),
            lengths.as_ptr(),
            lengths.len(),
            sequence,
            block.as_mut_ptr(),
            block.len(),
            report.as_mut_ptr(),
        )
    }
}

/// The result of the call is the report's number too.
pub fn is_protected(book: &[u8], symbol: &[u8], side: u8, price: u64, report: &mut [u64; 3]) -> u8 {
    // SAFETY: each pointer and its length are one slice's; the report has its three numbers; book and
    // symbol are only read.
    unsafe {
        c::qb_is_protected(
            book.as_ptr(),
            book.len(),
            symbol.as_ptr(),
            symbol.len(),
            side,
            price,
            report.as_mut_ptr(),
        )
    }
}

/// The result of the call is the report's number too.
pub fn convert_len(book: &[u8], block: &[u8], report: &mut [u64; 2]) -> u8 {
    // SAFETY: each pointer and its length are one slice's; the report has its two numbers; book and
    // block are only read.
    unsafe {
        c::qb_convert_len(
            book.as_ptr(),
            book.len(),
            block.as_ptr(),
            block.len(),
            report.as_mut_ptr(),
        )
    }
}

/// The result of the call is the report's number too.
pub fn convert(book: &[u8], block: &[u8], output: &mut [u8], report: &mut [u64; 2]) -> u8 {
    // SAFETY: each pointer and its length are one slice's; the report has its two numbers; book and
    // block are only read.
    unsafe {
        c::qb_convert(
            book.as_ptr(),
            book.len(),
            block.as_ptr(),
            block.len(),
            output.as_mut_ptr(),
            output.len(),
            report.as_mut_ptr(),
        )
    }
}

pub fn snapshot_len(book: &[u8], symbol: &[u8], size: &mut [u64; 2]) -> u8 {
    // SAFETY: each pointer and its length are one slice's; the size has its two numbers; book and
    // symbol are only read.
    unsafe {
        c::qb_snapshot_len(
            book.as_ptr(),
            book.len(),
            symbol.as_ptr(),
            symbol.len(),
            size.as_mut_ptr(),
        )
    }
}

pub fn snapshot(book: &[u8], symbol: &[u8], output: &mut [u8], size: &mut [u64; 2]) -> u8 {
    // SAFETY: each pointer and its length are one slice's; the size has its two numbers; book and
    // symbol are only read, and the output is lent to nobody else.
    unsafe {
        c::qb_snapshot(
            book.as_ptr(),
            book.len(),
            symbol.as_ptr(),
            symbol.len(),
            output.as_mut_ptr(),
            output.len(),
            size.as_mut_ptr(),
        )
    }
}

/// The result of the call is the report's number too.
pub fn try_order(
    book: &[u8],
    symbol: &[u8],
    side: u8,
    lots: u32,
    steps: &mut [u8],
    report: &mut [u64; 3],
) -> u8 {
    // SAFETY: each pointer and its length are one slice's; the report has its three numbers; book and
    // symbol are only read.
    unsafe {
        c::qb_try_order(
            book.as_ptr(),
            book.len(),
            symbol.as_ptr(),
            symbol.len(),
            side,
            lots,
            steps.as_mut_ptr(),
            steps.len(),
            report.as_mut_ptr(),
        )
    }
}

/// The result of the call is the report's number too.
pub fn log_head(log: &[u8], report: &mut [u64; 3]) -> u8 {
    // SAFETY: pointer and length are one slice's, which is only read; the report has its three numbers.
    unsafe { c::qb_log_head(log.as_ptr(), log.len(), report.as_mut_ptr()) }
}

/// The result of the call is the report's number too.
pub fn replay(
    book: &mut [u8],
    log: &[u8],
    from: usize,
    output: &mut [u8],
    report: &mut [u64; 3],
) -> u8 {
    // SAFETY: each pointer and its length are one slice's; the report has its three numbers; the log is
    // only read.
    unsafe {
        c::qb_replay(
            book.as_mut_ptr(),
            book.len(),
            log.as_ptr(),
            log.len(),
            from,
            output.as_mut_ptr(),
            output.len(),
            report.as_mut_ptr(),
        )
    }
}

/// The result of the call is the report's number too.
pub fn restore(book: &mut [u8], log: &[u8], output: &mut [u8], report: &mut [u64; 3]) -> u8 {
    // SAFETY: each pointer and its length are one slice's; the report has its three numbers; the log is
    // only read.
    unsafe {
        c::qb_restore(
            book.as_mut_ptr(),
            book.len(),
            log.as_ptr(),
            log.len(),
            output.as_mut_ptr(),
            output.len(),
            report.as_mut_ptr(),
        )
    }
}
