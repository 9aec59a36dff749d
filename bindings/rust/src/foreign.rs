//! The functions of include/chaloenpik.h.

/// The writer's state in numbers.
pub type State = [u64; 11];

/// The types of the open table's columns: as many as a table may have.
pub type Types = [u8; 1024];

/// The size of a null among the numbers of a whole row.
pub const NULL_SIZE: u64 = u64::MAX;

/// How many bytes of a ring are kept as they came.
pub const RING_KEPT: usize = 38;

/// How many bytes of an area are kept as they came, besides those of its rings.
pub const AREA_KEPT: usize = 33;

/// The state of writing an area in numbers.
pub type AreaState = [u64; 5];

extern "C" {
    pub fn chaloenpik_accept(kind: u8, message: *const u8, length: usize) -> u64;
    pub fn chaloenpik_field_count(kind: u8, message: *const u8, length: usize) -> u64;
    pub fn chaloenpik_fields(kind: u8, message: *const u8, length: usize, first: usize, out: *mut u64, size: usize) -> u64;
    pub fn chaloenpik_owner(kind: u8, message: *const u8, length: usize, offset: usize) -> u64;

    pub fn chaloenpik_login_request(message: *const u8, length: usize, record: *mut [u64; 9]) -> u64;
    pub fn chaloenpik_login_response(message: *const u8, length: usize, record: *mut [u64; 9]) -> u64;
    pub fn chaloenpik_invocation(message: *const u8, length: usize, record: *mut [u64; 6]) -> u64;
    pub fn chaloenpik_response(message: *const u8, length: usize, record: *mut [u64; 17]) -> u64;

    pub fn chaloenpik_parameter(message: *const u8, length: usize, parameter: usize, cell: *mut [u64; 4]) -> u64;
    pub fn chaloenpik_element(message: *const u8, length: usize, parameter: usize, element: usize, cell: *mut [u64; 4]) -> u64;

    pub fn chaloenpik_tables(message: *const u8, length: usize) -> u64;
    pub fn chaloenpik_rows(message: *const u8, length: usize, table: usize) -> u64;
    pub fn chaloenpik_columns(message: *const u8, length: usize, table: usize) -> u64;
    pub fn chaloenpik_column_type(message: *const u8, length: usize, table: usize, column: usize) -> u64;
    pub fn chaloenpik_column_name(message: *const u8, length: usize, table: usize, column: usize, part: *mut [u64; 2]) -> u64;
    pub fn chaloenpik_find_column(message: *const u8, length: usize, table: usize, name: *const u8, name_length: usize) -> u64;
    pub fn chaloenpik_cell(message: *const u8, length: usize, table: usize, row: usize, column: usize, cell: *mut [u64; 4]) -> u64;
    pub fn chaloenpik_cell_place(message: *const u8, length: usize, table: usize, row: usize, column: usize, part: *mut [u64; 2]) -> u64;

    pub fn chaloenpik_make_card(
        message: *const u8, length: usize, table: usize, name: *const u8, name_length: usize, out: *mut u8, size: usize,
    ) -> u64;
    pub fn chaloenpik_open_card(message: *const u8, length: usize, table: usize, card: *const u8, card_length: usize) -> u64;
    pub fn chaloenpik_card_fit(
        message: *const u8, length: usize, table: usize, card: *const u8, card_length: usize, fit: *mut [u64; 3],
    ) -> u64;

    pub fn chaloenpik_write_login_request(
        out: *mut u8, size: usize, version: u8, hash_version: u8, service: *const u8, service_length: usize, user: *const u8,
        user_length: usize, hash: *const u8, hash_length: usize,
    ) -> u64;
    pub fn chaloenpik_write_login_response(
        out: *mut u8, size: usize, version: u8, result: u8, host: u32, connection: u64, start: u64, leader: u32, build: *const u8,
        build_length: usize,
    ) -> u64;

    pub fn chaloenpik_begin_call(
        out: *mut u8, size: usize, state: *mut State, version: u8, procedure: *const u8, procedure_length: usize, client: *const [u8; 8],
    ) -> u64;
    pub fn chaloenpik_null_param(out: *mut u8, size: usize, state: *mut State) -> u64;
    pub fn chaloenpik_fixed_param(out: *mut u8, size: usize, state: *mut State, wire_type: u8, upper: u64, lower: u64) -> u64;
    pub fn chaloenpik_body_param(
        out: *mut u8, size: usize, state: *mut State, wire_type: u8, null: bool, bytes: *const u8, length: usize,
    ) -> u64;
    pub fn chaloenpik_bytes_param(out: *mut u8, size: usize, state: *mut State, bytes: *const u8, length: usize) -> u64;
    pub fn chaloenpik_open_array(out: *mut u8, size: usize, state: *mut State, wire_type: u8) -> u64;
    pub fn chaloenpik_fixed_element(out: *mut u8, size: usize, state: *mut State, wire_type: u8, upper: u64, lower: u64) -> u64;
    pub fn chaloenpik_body_element(
        out: *mut u8, size: usize, state: *mut State, wire_type: u8, null: bool, bytes: *const u8, length: usize,
    ) -> u64;
    pub fn chaloenpik_close_array(out: *mut u8, size: usize, state: *mut State) -> u64;
    pub fn chaloenpik_finish_call(out: *mut u8, size: usize, state: *mut State) -> u64;

    pub fn chaloenpik_begin_reply(
        out: *mut u8, size: usize, state: *mut State, version: u8, client: *const [u8; 8], flags: u8, status: u8, status_null: bool,
        status_string: *const u8, status_length: usize, app_status: u8, app_null: bool, app_string: *const u8, app_length: usize,
        round_trip: u32, exception: *const u8, exception_length: usize,
    ) -> u64;
    pub fn chaloenpik_open_table(
        out: *mut u8, size: usize, state: *mut State, types: *mut Types, status: u8, columns: *const u64, numbers: usize, names: *const u8,
        names_length: usize,
    ) -> u64;
    pub fn chaloenpik_open_row(out: *mut u8, size: usize, state: *mut State, types: *const Types) -> u64;
    pub fn chaloenpik_fixed_cell(
        out: *mut u8, size: usize, state: *mut State, types: *const Types, wire_type: u8, upper: u64, lower: u64,
    ) -> u64;
    pub fn chaloenpik_body_cell(
        out: *mut u8, size: usize, state: *mut State, types: *const Types, wire_type: u8, null: bool, bytes: *const u8, length: usize,
    ) -> u64;
    pub fn chaloenpik_close_row(out: *mut u8, size: usize, state: *mut State, types: *const Types) -> u64;
    pub fn chaloenpik_whole_row(
        out: *mut u8, size: usize, state: *mut State, types: *const Types, cells: *const u64, numbers: usize, bytes: *const u8,
        length: usize,
    ) -> u64;
    pub fn chaloenpik_close_table(out: *mut u8, size: usize, state: *mut State, types: *const Types) -> u64;
    pub fn chaloenpik_finish_reply(out: *mut u8, size: usize, state: *mut State) -> u64;

    pub fn chaloenpik_area_rings(body: *const u8, length: usize) -> u64;
    pub fn chaloenpik_area_ring(body: *const u8, length: usize, ring: usize, told: *mut [u64; 3]) -> u64;
    pub fn chaloenpik_area_vertex(body: *const u8, length: usize, ring: usize, vertex: usize, axes: *mut [u64; 3]) -> u64;
    pub fn chaloenpik_area_ring_kept(body: *const u8, length: usize, ring: usize, part: *mut [u64; 2]) -> u64;
    pub fn chaloenpik_area_kept(body: *const u8, length: usize, part: *mut [u64; 2]) -> u64;
    pub fn chaloenpik_area_field_count(body: *const u8, length: usize) -> u64;
    pub fn chaloenpik_area_fields(body: *const u8, length: usize, first: usize, out: *mut u64, size: usize) -> u64;
    pub fn chaloenpik_area_owner(body: *const u8, length: usize, offset: usize) -> u64;
    pub fn chaloenpik_area_turn_holes(body: *mut u8, length: usize) -> u64;

    pub fn chaloenpik_area_begin(out: *mut u8, size: usize, state: *mut AreaState, edition: u8, internal: u8) -> u64;
    pub fn chaloenpik_area_open_ring(out: *mut u8, size: usize, state: *mut AreaState, mark: u8) -> u64;
    pub fn chaloenpik_area_add_vertex(out: *mut u8, size: usize, state: *mut AreaState, x: u64, y: u64, z: u64) -> u64;
    pub fn chaloenpik_area_close_ring(out: *mut u8, size: usize, state: *mut AreaState, kept: *const [u8; RING_KEPT]) -> u64;
    pub fn chaloenpik_area_finish(out: *mut u8, size: usize, state: *mut AreaState, kept: *const [u8; AREA_KEPT]) -> u64;
}
