//! What is used of nghttp3 0.8, as its header declares it.

use std::ffi::{c_char, c_int, c_void};

#[repr(C)]
pub struct Conn {
    _private: [u8; 0],
}

/// Bytes whose owners are counted.
#[repr(C)]
pub struct RcBuf {
    _private: [u8; 0],
}

#[repr(C)]
pub struct Mem {
    _private: [u8; 0],
}

#[repr(C)]
#[derive(Clone, Copy)]
pub struct Bytes {
    pub base: *mut u8,
    pub len: usize,
}

#[repr(C)]
pub struct NameValue {
    pub name: *const u8,
    pub value: *const u8,
    pub name_len: usize,
    pub value_len: usize,
    pub flags: u8,
}

pub type OnStream = extern "C" fn(*mut Conn, i64, *mut c_void, *mut c_void) -> c_int;
pub type OnCode = extern "C" fn(*mut Conn, i64, u64, *mut c_void, *mut c_void) -> c_int;
pub type OnData =
    extern "C" fn(*mut Conn, i64, *const u8, usize, *mut c_void, *mut c_void) -> c_int;
pub type OnConsumed = extern "C" fn(*mut Conn, i64, usize, *mut c_void, *mut c_void) -> c_int;
pub type OnHeader = extern "C" fn(
    *mut Conn,
    i64,
    i32,
    *mut RcBuf,
    *mut RcBuf,
    u8,
    *mut c_void,
    *mut c_void,
) -> c_int;
pub type OnHeadersEnd = extern "C" fn(*mut Conn, i64, c_int, *mut c_void, *mut c_void) -> c_int;
pub type OnShutdown = extern "C" fn(*mut Conn, i64, *mut c_void) -> c_int;
pub type ReadData =
    extern "C" fn(*mut Conn, i64, *mut Bytes, usize, *mut u32, *mut c_void, *mut c_void) -> isize;

#[repr(C)]
#[derive(Default)]
pub struct Callbacks {
    pub acked_stream_data: Option<OnCode>,
    pub stream_close: Option<OnCode>,
    pub recv_data: Option<OnData>,
    pub deferred_consume: Option<OnConsumed>,
    pub begin_headers: Option<OnStream>,
    pub recv_header: Option<OnHeader>,
    pub end_headers: Option<OnHeadersEnd>,
    pub begin_trailers: Option<OnStream>,
    pub recv_trailer: Option<OnHeader>,
    pub end_trailers: Option<OnHeadersEnd>,
    pub stop_sending: Option<OnCode>,
    pub end_stream: Option<OnStream>,
    pub reset_stream: Option<OnCode>,
    pub shutdown: Option<OnShutdown>,
}

#[repr(C)]
pub struct Settings {
    pub max_field_section_size: u64,
    pub qpack_max_dtable_capacity: usize,
    pub qpack_encoder_max_dtable_capacity: usize,
    pub qpack_blocked_streams: usize,
    pub enable_connect_protocol: c_int,
}

#[repr(C)]
#[derive(Default)]
pub struct Priority {
    pub urgency: u32,
    pub incremental: c_int,
}

#[repr(C)]
pub struct DataReader {
    pub read_data: ReadData,
}

#[repr(C)]
pub struct Info {
    pub age: c_int,
    pub number: c_int,
    pub text: *const c_char,
}

/// 0.8, without the number of its release.
pub const VERSION: c_int = 0x00_08;
pub const CALLBACKS_VERSION: c_int = 1;
pub const SETTINGS_VERSION: c_int = 1;
pub const DATA_FLAG_EOF: u32 = 1;
pub const ERR_WOULDBLOCK: isize = -104;
pub const ERR_STREAM_NOT_FOUND: c_int = -114;

#[link(name = "nghttp3")]
unsafe extern "C" {
    pub fn nghttp3_version(least: c_int) -> *const Info;
    pub fn nghttp3_mem_default() -> *const Mem;
    pub fn nghttp3_rcbuf_get_buf(buffer: *const RcBuf) -> Bytes;
    pub fn nghttp3_strerror(error: c_int) -> *const c_char;
    pub fn nghttp3_err_infer_quic_app_error_code(error: c_int) -> u64;
    pub fn nghttp3_conn_client_new_versioned(
        conn: *mut *mut Conn,
        callbacks_version: c_int,
        callbacks: *const Callbacks,
        settings_version: c_int,
        settings: *const Settings,
        mem: *const Mem,
        user_data: *mut c_void,
    ) -> c_int;
    pub fn nghttp3_conn_server_new_versioned(
        conn: *mut *mut Conn,
        callbacks_version: c_int,
        callbacks: *const Callbacks,
        settings_version: c_int,
        settings: *const Settings,
        mem: *const Mem,
        user_data: *mut c_void,
    ) -> c_int;
    pub fn nghttp3_conn_del(conn: *mut Conn);
    pub fn nghttp3_conn_bind_control_stream(conn: *mut Conn, stream: i64) -> c_int;
    pub fn nghttp3_conn_bind_qpack_streams(conn: *mut Conn, encoder: i64, decoder: i64) -> c_int;
    pub fn nghttp3_conn_set_max_client_streams_bidi(conn: *mut Conn, most: u64);
    pub fn nghttp3_conn_read_stream(
        conn: *mut Conn,
        stream: i64,
        source: *const u8,
        len: usize,
        fin: c_int,
    ) -> isize;
    pub fn nghttp3_conn_writev_stream(
        conn: *mut Conn,
        stream: *mut i64,
        fin: *mut c_int,
        parts: *mut Bytes,
        count: usize,
    ) -> isize;
    pub fn nghttp3_conn_add_write_offset(conn: *mut Conn, stream: i64, count: usize) -> c_int;
    pub fn nghttp3_conn_add_ack_offset(conn: *mut Conn, stream: i64, count: u64) -> c_int;
    pub fn nghttp3_conn_block_stream(conn: *mut Conn, stream: i64);
    pub fn nghttp3_conn_unblock_stream(conn: *mut Conn, stream: i64) -> c_int;
    pub fn nghttp3_conn_shutdown_stream_write(conn: *mut Conn, stream: i64);
    pub fn nghttp3_conn_shutdown_stream_read(conn: *mut Conn, stream: i64) -> c_int;
    pub fn nghttp3_conn_submit_shutdown_notice(conn: *mut Conn) -> c_int;
    pub fn nghttp3_conn_get_stream_priority(
        conn: *mut Conn,
        priority: *mut Priority,
        stream: i64,
    ) -> c_int;
    pub fn nghttp3_conn_shutdown(conn: *mut Conn) -> c_int;
    pub fn nghttp3_conn_close_stream(conn: *mut Conn, stream: i64, code: u64) -> c_int;
    pub fn nghttp3_conn_submit_request(
        conn: *mut Conn,
        stream: i64,
        fields: *const NameValue,
        count: usize,
        reader: *const DataReader,
        user_data: *mut c_void,
    ) -> c_int;
    pub fn nghttp3_conn_submit_response(
        conn: *mut Conn,
        stream: i64,
        fields: *const NameValue,
        count: usize,
        reader: *const DataReader,
    ) -> c_int;
}
