//! The exports of the static libraries: of `answers` the first fourteen, of
//! `answers_asked` the others. They are declared here only.

extern "C" {
    pub fn tezhukor_load(
        file: *const u8,
        file_length: usize,
        table: *mut u16,
        table_length: usize,
    ) -> u32;

    pub fn tezhukor_save(
        context: u16,
        count: u16,
        table: *const u16,
        table_length: usize,
        file: *mut u8,
        file_length: usize,
    ) -> u32;

    pub fn tezhukor_compare(
        first: *const u8,
        first_length: usize,
        second: *const u8,
        second_length: usize,
    ) -> u32;

    pub fn tezhukor_decide(
        context: u16,
        count: u16,
        table: *const u16,
        table_length: usize,
        rows: *mut u16,
        rows_length: usize,
    ) -> u16;

    pub fn tezhukor_write(
        context: u16,
        count: u16,
        table: *const u16,
        table_length: usize,
        tokens: *mut u16,
        tokens_length: usize,
    ) -> u64;

    pub fn tezhukor_read(
        context: u16,
        tokens: *const u16,
        tokens_length: usize,
        table: *mut u16,
        table_length: usize,
    ) -> u32;

    pub fn tezhukor_binding(operator: u16) -> u16;

    pub fn tezhukor_edit(
        context: u16,
        count: u16,
        order: u16,
        table: *mut u16,
        table_length: usize,
        rows: *mut u16,
        rows_length: usize,
        node: u16,
        second_context: u16,
        second_count: u16,
        second: *const u16,
        second_length: usize,
    ) -> u32;

    pub fn tezhukor_preview(
        context: u16,
        count: u16,
        order: u16,
        table: *const u16,
        table_length: usize,
        rows: *const u16,
        rows_length: usize,
        node: u16,
        second_context: u16,
        second_count: u16,
        second: *const u16,
        second_length: usize,
        result_table: *mut u16,
        result_table_length: usize,
        result_rows: *mut u16,
        result_rows_length: usize,
    ) -> u32;

    pub fn tezhukor_carry(
        context: u16,
        count: u16,
        order: u16,
        table: *const u16,
        table_length: usize,
        rows: *mut u16,
        rows_length: usize,
    ) -> u32;

    pub fn tezhukor_to_columns(
        file: *const u8,
        file_length: usize,
        columns: *mut u8,
        columns_length: usize,
    ) -> u32;

    pub fn tezhukor_from_columns(
        columns: *const u8,
        columns_length: usize,
        file: *mut u8,
        file_length: usize,
    ) -> u32;

    pub fn tezhukor_load_columns(
        columns: *const u8,
        columns_length: usize,
        table: *mut u16,
        table_length: usize,
    ) -> u32;

    pub fn tezhukor_decide_open(
        context: u16,
        count: u16,
        order: u16,
        table: *const u16,
        table_length: usize,
        entered: u16,
        entries: *const u16,
        entries_length: usize,
        answers: *mut u16,
        answers_length: usize,
    ) -> u16;

    pub fn tezhukor_decide_by_order(
        order: u16,
        context: u16,
        count: u16,
        table: *const u16,
        table_length: usize,
        rows: *mut u16,
        rows_length: usize,
    ) -> u16;

    pub fn tezhukor_answer(
        question: u16,
        table: *const u16,
        table_length: usize,
        count: u16,
        node: u16,
    ) -> u16;

    pub fn tezhukor_fixup_answer(
        question: u16,
        previous: u16,
        next: u16,
        flags: u16,
        table: *const u16,
        table_length: usize,
        count: u16,
        node: u16,
    ) -> u16;

    pub fn tezhukor_scan_right(
        previous: u16,
        next: u16,
        flags: u16,
        precedence: u16,
        fail_offset: u16,
        bailout_offset: u16,
        table: *const u16,
        table_length: usize,
        count: u16,
        node: u16,
    ) -> u16;

    pub fn tezhukor_context(
        question: u16,
        cell: u16,
        previous: u16,
        next: u16,
        flags: u16,
        first: u16,
        second: u16,
        precedence: u16,
    ) -> u16;

    pub fn tezhukor_handed(
        question: u16,
        cell: u16,
        previous: u16,
        next: u16,
        flags: u16,
        table: *const u16,
        table_length: usize,
        count: u16,
        node: u16,
    ) -> u16;
}
