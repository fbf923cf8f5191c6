//! The exported functions of the library, declared.
//!
//! Made by tools/border/border.py from crates/abi/src; not edited by hand.

unsafe extern "C" {
    pub fn jangqeruz_defaults(words: *mut u32, words_len: usize) -> usize;

    pub fn jangqeruz_build(
        words: *const u32,
        words_len: usize,
        pool: *const u32,
        pool_len: usize,
        raw: *const u8,
        raw_len: usize,
        tracks: *const u32,
        tracks_len: usize,
        markers: *const u32,
        markers_len: usize,
        comments: *const u32,
        comments_len: usize,
        callers: *const u32,
        callers_len: usize,
        lengths: *const u32,
        lengths_len: usize,
        header: *mut u8,
        header_len: usize,
        trailer: *mut u8,
        trailer_len: usize,
        answer: *mut u64,
        answer_len: usize,
    ) -> u64;

    pub fn jangqeruz_verdict(
        words: *const u32,
        words_len: usize,
        pool: *const u32,
        pool_len: usize,
        raw: *const u8,
        raw_len: usize,
        tracks: *const u32,
        tracks_len: usize,
        markers: *const u32,
        markers_len: usize,
        comments: *const u32,
        comments_len: usize,
        callers: *const u32,
        callers_len: usize,
        lengths: *const u32,
        lengths_len: usize,
    ) -> u64;

    pub fn jangqeruz_query(
        range: *mut [u64; 2],
        dst: bool,
        crc: bool,
        channels: u8,
        positions: u32,
        lengths: *const u32,
        lengths_len: usize,
        header: u64,
        trailer: u64,
        offset: u64,
        room: u64,
    ) -> u64;

    pub fn jangqeruz_read(
        out: *mut u8,
        out_len: usize,
        filled: *mut [u64; 1],
        dst: bool,
        crc: bool,
        channels: u8,
        positions: u32,
        lengths: *const u32,
        lengths_len: usize,
        header: *const u8,
        header_len: usize,
        trailer: *const u8,
        trailer_len: usize,
        offset: u64,
        lent: *const u32,
        lent_len: usize,
        frames: *const u8,
        frames_len: usize,
        contents: *const u8,
        contents_len: usize,
    ) -> u64;

    pub fn jangqeruz_property(
        out: *mut u8,
        out_len: usize,
        order: *const [u8; 5],
        dst: bool,
        layout_number: u8,
        channels: u8,
        numbers_given: bool,
        numbers_count: u32,
        numbers: *const [u16; 6],
        start_given: bool,
        start_frame: u32,
        loudspeaker_configuration: bool,
        unspecified_loudspeaker_configuration: bool,
        d1: bool,
    ) -> usize;

    pub fn jangqeruz_diin(
        out: *mut u8,
        out_len: usize,
        pool: *const u32,
        pool_len: usize,
        raw: *const u8,
        raw_len: usize,
        tracks: *const u32,
        tracks_len: usize,
        custom: *const u32,
        custom_len: usize,
        order: *const [u8; 4],
        on: bool,
        empty_info: bool,
        emid: *const [u32; 3],
        custom_markers: bool,
        first: u32,
        end: u32,
        playtime: u32,
        source_track: u16,
        source_track_markers: bool,
        clipped_program: bool,
        titles: bool,
        start_given: bool,
        start_frame: u32,
        rule_number: u8,
        replacement: u8,
        empty_text: bool,
        text_pad_counted: bool,
        artist_title: bool,
        source_number: u8,
        album_artist: *const [u32; 3],
        album_title: *const [u32; 3],
        track_artist: *const [u32; 3],
        track_title: *const [u32; 3],
    ) -> usize;

    pub fn jangqeruz_text_bytes(
        out: *mut u8,
        out_len: usize,
        pool: *const u32,
        pool_len: usize,
        start: u32,
        length: u32,
        rule_number: u8,
        replacement: u8,
    ) -> usize;

    pub fn jangqeruz_diin_text(
        out: *mut u8,
        out_len: usize,
        id: *const [u8; 4],
        pool: *const u32,
        pool_len: usize,
        given: bool,
        start: u32,
        length: u32,
        rule_number: u8,
        replacement: u8,
        empty_text: bool,
        text_pad_counted: bool,
    ) -> usize;

    pub fn jangqeruz_comt(
        out: *mut u8,
        out_len: usize,
        pool: *const u32,
        pool_len: usize,
        rows: *const u32,
        rows_len: usize,
        rule_number: u8,
        replacement: u8,
        empty_text: bool,
        text_pad_counted: bool,
    ) -> usize;

    pub fn jangqeruz_date_fault(date: *const [u32; 5]) -> u64;

    pub fn jangqeruz_note_fault(note: *const [u32; 5]) -> u64;

    pub fn jangqeruz_earlier(a: *const [u32; 5], b: *const [u32; 5]) -> bool;

    pub fn jangqeruz_falls_in(
        falls: *mut [u64; 1],
        start: *const [u32; 5],
        end: *const [u32; 5],
        note: *const [u32; 5],
    ) -> u64;

    pub fn jangqeruz_crc(content: *const u8, content_len: usize) -> u32;

    pub fn jangqeruz_dst_head(
        out: *mut u8,
        out_len: usize,
        crc: bool,
        lengths: *const u32,
        lengths_len: usize,
    ) -> usize;

    pub fn jangqeruz_dst_index(
        out: *mut u8,
        out_len: usize,
        crc: bool,
        frame_data: bool,
        base: u64,
        lengths: *const u32,
        lengths_len: usize,
    ) -> usize;

    pub fn jangqeruz_dst_positions(
        range: *mut [usize; 2],
        crc: bool,
        lengths: *const u32,
        lengths_len: usize,
        from: u64,
        count: u64,
    );

    pub fn jangqeruz_dsd_positions(range: *mut [usize; 2], channels: u8, n: u32, from: u64, count: u64);

    pub fn jangqeruz_dst_fill(
        out: *mut u8,
        out_len: usize,
        skip: u64,
        crc: bool,
        channels: u8,
        lengths: *const u32,
        lengths_len: usize,
        lent: *const u32,
        lent_len: usize,
        frames: *const u8,
        frames_len: usize,
        contents: *const u8,
        contents_len: usize,
    ) -> usize;

    pub fn jangqeruz_dsd_fill(
        out: *mut u8,
        out_len: usize,
        skip: u64,
        channels: u8,
        n: u32,
        contents: *const u8,
        contents_len: usize,
    ) -> usize;
}
