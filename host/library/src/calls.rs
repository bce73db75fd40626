//! The calls: the bytes of a request, of a day log or of a sweep's state in, the
//! answer's number and the count of bytes written on the page out.

/// Pointer and length of the request, pointer and length of the page, and
/// where the count of bytes written goes.
pub type Call = unsafe extern "C" fn(*const u8, usize, *mut u8, usize, *mut u64) -> u32;

/// Declares the archive's functions, all of one shape, and for each a safe
/// function and a constant that is the archive's own.
macro_rules! calls {
    ($($(#[$doc:meta])* $safe:ident, $raw:ident: $symbol:ident;)*) => {
        extern "C" {
            $(fn $symbol(
                request: *const u8,
                request_length: usize,
                page: *mut u8,
                page_length: usize,
                written: *mut u64,
            ) -> u32;)*
        }

        $($(#[$doc])*
        ///
        /// Gives the answer's number and the bytes written.
        pub fn $safe(request: &[u8], page: &mut [u8]) -> (u32, u64) {
            call($symbol, request, page)
        }

        /// The archive's function itself.
        pub const $raw: Call = $symbol;)*
    };
}

calls! {
    /// Examines the candidate of a request of `EXAMINE_LENGTH` bytes and
    /// writes the listing.
    examine, EXAMINE: pewgull_examine;

    /// Chooses among all candidates for a request of `CHOOSE_LENGTH` bytes
    /// and writes the listing.
    choose, CHOOSE: pewgull_choose;

    /// Writes the `FIGURES_LENGTH` bytes of the figures that the candidate of
    /// a request of `EXPLAIN_LENGTH` bytes is judged by.
    explain, EXPLAIN: pewgull_explain;

    /// Examines every candidate for a request of `CHOOSE_LENGTH` bytes and
    /// writes the `CENSUS_LENGTH` bytes of the counts of their answers.
    census, CENSUS: pewgull_census;

    /// Finds the highest two-week load of the bytes of a day log and writes
    /// the `LOAD_PAGE` bytes of its sum and day.
    load, LOAD: pewgull_load;

    /// Finds the lowest nitrate target in force on the date of a request of
    /// `TARGET_LENGTH` bytes and writes its `TARGET_PAGE` bytes.
    target, TARGET: pewgull_target;

    /// Chooses for each line of a works, by a request of `WORKS_LENGTH` bytes,
    /// and writes the `WORKS_PAGE` bytes of the sums and the lines' sheets.
    works, WORKS: pewgull_works;

    /// Chooses for one line of a works, by a request of `LINE_LENGTH` bytes,
    /// whatever the other lines get, and writes the listing.
    line, LINE: pewgull_line;

    /// Tries every sludge volume index of a span on the existing tanks of a
    /// request of `BUILT_LENGTH` bytes, and writes the `BUILT_PAGE` bytes of
    /// the smallest that they cannot hold, or of 0.
    built, BUILT: pewgull_built;

    /// Chooses as `choose` does for a request of `PRICE_CHOOSE_LENGTH` bytes,
    /// and writes the `PRICE_PAGE` bytes of the sheet and its price.
    price_choose, PRICE_CHOOSE: pewgull_price_choose;

    /// Examines as `examine` does for a request of `PRICE_EXAMINE_LENGTH`
    /// bytes, and writes the `PRICE_PAGE` bytes of the sheet and its price.
    price_examine, PRICE_EXAMINE: pewgull_price_examine;

    /// Starts a sweep for a request of `CHOOSE_LENGTH` bytes and writes the
    /// `STATE_LENGTH` bytes of its state; nothing where the data are refused.
    sweep_start, SWEEP_START: pewgull_sweep_start;
}

/// Pointer and length of the request, and where the listing's length goes.
pub type LengthCall = unsafe extern "C" fn(*const u8, usize, *mut u64) -> u32;

/// Declares the archive's functions for the length of a listing in the same way.
macro_rules! lengths {
    ($($(#[$doc:meta])* $safe:ident, $raw:ident: $symbol:ident;)*) => {
        extern "C" {
            $(fn $symbol(request: *const u8, request_length: usize, length: *mut u64) -> u32;)*
        }

        $($(#[$doc])*
        ///
        /// Gives the answer's number and the length of its listing.
        pub fn $safe(request: &[u8]) -> (u32, u64) {
            let mut length = 0;
            // Safety: as in `call`.
            let number = unsafe { $symbol(request.as_ptr(), request.len(), &mut length) };
            (number, length)
        }

        /// The archive's function itself.
        pub const $raw: LengthCall = $symbol;)*
    };
}

lengths! {
    /// How many bytes `examine` writes for a request of `EXAMINE_LENGTH` bytes.
    length_examine, LENGTH_EXAMINE: pewgull_length_examine;

    /// How many bytes `choose` writes for a request of `CHOOSE_LENGTH` bytes.
    length_choose, LENGTH_CHOOSE: pewgull_length_choose;

    /// How many bytes `line` writes for a request of `LINE_LENGTH` bytes.
    length_line, LENGTH_LINE: pewgull_length_line;
}

extern "C" {
    fn pewgull_sweep_advance(
        state: *mut u8,
        state_length: usize,
        candidates: u32,
        page: *mut u8,
        page_length: usize,
        written: *mut u64,
    ) -> u32;

    fn pewgull_sweep_examine(
        state: *const u8,
        state_length: usize,
        fraction: u32,
        return_ratio: u32,
        thickening: u32,
        page: *mut u8,
        page_length: usize,
        written: *mut u64,
    ) -> u32;
}

/// Pointer and length of the state, the candidates asked for, and the rest as
/// for a `Call`.
pub type AdvanceCall = unsafe extern "C" fn(*mut u8, usize, u32, *mut u8, usize, *mut u64) -> u32;

/// Pointer and length of the state, the candidate's three numbers, and the rest
/// as for a `Call`.
pub type ExamineCall =
    unsafe extern "C" fn(*const u8, usize, u32, u32, u32, *mut u8, usize, *mut u64) -> u32;

/// The archive's function itself.
pub const SWEEP_ADVANCE: AdvanceCall = pewgull_sweep_advance;
/// The archive's function itself.
pub const SWEEP_EXAMINE: ExamineCall = pewgull_sweep_examine;

/// Goes on with the sweep of a state of `STATE_LENGTH` bytes, in place, by so
/// many candidates, at most `ADVANCE_MOST`. Gives `UNFINISHED` and writes
/// nothing on the page, or what `choose` gives and writes the listing.
///
/// Gives the answer's number and the bytes written.
pub fn sweep_advance(state: &mut [u8], candidates: u32, page: &mut [u8]) -> (u32, u64) {
    let mut written = 0;
    // Safety: as in `call`; the state is borrowed mutably too.
    let number = unsafe {
        pewgull_sweep_advance(
            state.as_mut_ptr(),
            state.len(),
            candidates,
            page.as_mut_ptr(),
            page.len(),
            &mut written,
        )
    };
    (number, written)
}

/// Examines a candidate of the plant whose sweep has this state of
/// `STATE_LENGTH` bytes, and writes the listing. The sweep stays where it is.
///
/// Gives the answer's number and the bytes written.
pub fn sweep_examine(
    state: &[u8],
    fraction: u32,
    return_ratio: u32,
    thickening: u32,
    page: &mut [u8],
) -> (u32, u64) {
    let mut written = 0;
    // Safety: as in `call`.
    let number = unsafe {
        pewgull_sweep_examine(
            state.as_ptr(),
            state.len(),
            fraction,
            return_ratio,
            thickening,
            page.as_mut_ptr(),
            page.len(),
            &mut written,
        )
    };
    (number, written)
}

fn call(function: Call, request: &[u8], page: &mut [u8]) -> (u32, u64) {
    let mut written = 0;
    // Safety: both slices are valid for their lengths. The page is borrowed
    // mutably and `written` is local, so no two of them overlap.
    let number = unsafe {
        function(
            request.as_ptr(),
            request.len(),
            page.as_mut_ptr(),
            page.len(),
            &mut written,
        )
    };
    (number, written)
}
