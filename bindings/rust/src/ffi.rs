//! The structs and functions of include/smb3seal.h. `tests/table.rs` compares the structs with the header's.

#[derive(Clone, Copy)]
#[repr(C)]
pub struct Connection {
    pub dialect: u16,
    pub cipher: u16,
    pub role: u8,
    pub encryption: u8,
    pub constrained: u8,
    pub spare: u8,
}

#[repr(C)]
pub struct Session {
    pub id: u64,
    pub counter: u64,
    pub signing: [u8; 16],
    pub application: [u8; 16],
    pub client_to_server: [u8; 32],
    pub server_to_client: [u8; 32],
    pub used: u8,
    pub guest: u8,
    pub anonymous: u8,
    pub wide: u8,
    pub spare: [u8; 4],
}

#[derive(Clone, Copy)]
#[repr(C)]
pub struct FoldState {
    pub hash: [u64; 8],
    pub buffer: [u8; 128],
    pub count: u64,
    pub joined: u64,
    pub head: [u8; 12],
    pub underway: u8,
    pub spare: [u8; 3],
}

#[repr(C)]
pub struct FoldStep {
    pub state: FoldState,
    pub number: u32,
    pub folded: u32,
}

#[derive(Clone, Copy)]
#[repr(C)]
pub struct SignState {
    pub key: [u8; 16],
    pub header: [u8; 64],
    pub chain: [u8; 16],
    pub buffer: [u8; 16],
    pub filled: u64,
    pub length: u64,
    pub begun: u64,
}

#[repr(C)]
pub struct SignStep {
    pub state: SignState,
    pub number: u32,
    pub spare: u32,
}

extern "C" {
    pub fn smb3seal_fold(
        chain: *mut u8,
        chain_len: usize,
        message: *const u8,
        message_len: usize,
    ) -> u32;
    pub fn smb3seal_fold_response(
        chain: *mut u8,
        chain_len: usize,
        message: *const u8,
        message_len: usize,
        folded: *mut u32,
    ) -> u32;
    pub fn smb3seal_fold_begin(chain: *const u8, chain_len: usize) -> FoldStep;
    pub fn smb3seal_fold_piece(state: FoldState, piece: *const u8, piece_len: usize) -> FoldStep;
    pub fn smb3seal_fold_finish(state: FoldState, chain: *mut u8, chain_len: usize) -> FoldStep;
    pub fn smb3seal_fold_response_finish(
        state: FoldState,
        chain: *mut u8,
        chain_len: usize,
    ) -> FoldStep;
    pub fn smb3seal_derive(
        dialect: u16,
        cipher: u16,
        material: *const u8,
        material_len: usize,
        chain: *const u8,
        chain_len: usize,
        keys: *mut u8,
        keys_len: usize,
    ) -> u32;
    pub fn smb3seal_seal(
        role: u32,
        dialect: u16,
        encryption: u32,
        cipher: u16,
        key: *const u8,
        key_len: usize,
        session_id: u64,
        counter: *mut u64,
        message: *mut u8,
        message_len: usize,
        headers: *mut u64,
    ) -> u32;
    pub fn smb3seal_open(
        role: u32,
        dialect: u16,
        encryption: u32,
        cipher: u16,
        key: *const u8,
        key_len: usize,
        session_id: u64,
        message: *mut u8,
        message_len: usize,
        headers: *mut u64,
    ) -> u32;

    pub fn smb3seal_trace_head(
        edition: u8,
        dialect: u16,
        cipher: u16,
        trace: *mut u8,
        trace_len: usize,
        at: *mut usize,
    ) -> u32;
    pub fn smb3seal_trace_record(
        kind: u32,
        from_server: u32,
        payload: *const u8,
        payload_len: usize,
        trace: *mut u8,
        trace_len: usize,
        at: *mut usize,
    ) -> u32;
    pub fn smb3seal_trace_read_head(
        trace: *const u8,
        trace_len: usize,
        edition: *mut u8,
        dialect: *mut u16,
        cipher: *mut u16,
    ) -> u32;
    pub fn smb3seal_trace_read(
        trace: *const u8,
        trace_len: usize,
        at: *mut usize,
        kind: *mut u32,
        from_server: *mut u32,
        payload: *mut usize,
        payload_len: *mut usize,
    ) -> u32;
    pub fn smb3seal_trace_rescue(
        trace: *const u8,
        trace_len: usize,
        rescued: *mut u8,
        rescued_len: usize,
        gaps: *mut u64,
        gaps_len: usize,
        written: *mut usize,
        count: *mut usize,
    ) -> u32;

    pub fn smb3seal_table_find(table: *const Session, table_len: usize, session_id: u64) -> usize;
    pub fn smb3seal_table_add(
        table: *mut Session,
        table_len: usize,
        connection: Connection,
        session_id: u64,
        guest: u32,
        anonymous: u32,
        material: *const u8,
        material_len: usize,
        chain: *const u8,
        chain_len: usize,
    ) -> u32;
    pub fn smb3seal_table_remove(table: *mut Session, table_len: usize, session_id: u64) -> u32;
    pub fn smb3seal_table_seal(
        table: *mut Session,
        table_len: usize,
        connection: Connection,
        session_id: u64,
        message: *mut u8,
        message_len: usize,
        headers: *mut u64,
    ) -> u32;
    pub fn smb3seal_table_open(
        table: *const Session,
        table_len: usize,
        connection: Connection,
        message: *mut u8,
        message_len: usize,
        headers: *mut u64,
    ) -> u32;

    pub fn smb3seal_sign(
        key: *const u8,
        key_len: usize,
        message: *mut u8,
        message_len: usize,
    ) -> u32;
    pub fn smb3seal_verify(
        key: *const u8,
        key_len: usize,
        message: *const u8,
        message_len: usize,
    ) -> u32;

    pub fn smb3seal_sign_begin(key: *const u8, key_len: usize) -> SignStep;
    pub fn smb3seal_sign_piece(state: SignState, piece: *const u8, piece_len: usize) -> SignStep;
    pub fn smb3seal_sign_finish(
        state: SignState,
        signature: *mut u8,
        signature_len: usize,
    ) -> SignStep;
    pub fn smb3seal_verify_finish(state: SignState) -> SignStep;
}
