//! What `mvt.h` declares, made of it by `library/layout.py`.

use std::os::raw::{c_char, c_int, c_void};

/// A tile has at most so many bytes.
pub const LIMIT: usize = 67_108_864;

/// So many of its first bytes tell what an input looks like that is no tile.
pub const HEAD: usize = 65_536;

pub const OK: u32 = 0;
pub const REFUSED: u32 = 1;
pub const NO_MEMORY: u32 = 2;
pub const TOO_LARGE: u32 = 3;
pub const NO_LAYER: u32 = 4;
pub const BAD_NAME: u32 = 5;
pub const NO_TILE: u32 = 6;
pub const NO_DECODER: u32 = 7;
pub const OUT_OF_TURN: u32 = 8;

/// The causes of an `mvt_fault`.
pub mod cause {
    pub const TRUNCATED: u32 = 1;
    pub const VARINT_RANGE: u32 = 2;
    pub const FIELD_NUMBER: u32 = 3;
    pub const WIRE_TYPE: u32 = 4;
    pub const WRONG_TYPE: u32 = 5;
    pub const NUMBER_RANGE: u32 = 6;
    pub const NOT_UTF8: u32 = 7;
    pub const NO_VERSION: u32 = 8;
    pub const NO_NAME: u32 = 10;
    pub const VALUE_KIND: u32 = 11;
    pub const GEOM_TYPE: u32 = 12;
    pub const ODD_TAGS: u32 = 13;
    pub const KEY_INDEX: u32 = 14;
    pub const VALUE_INDEX: u32 = 15;
    pub const REPEATED_KEY: u32 = 16;
    pub const COMMAND: u32 = 17;
    pub const COUNT: u32 = 18;
    pub const PARAMETERS: u32 = 19;
    pub const ZERO_SEGMENT: u32 = 20;
    pub const COORDINATE_RANGE: u32 = 21;
    pub const FIRST_RING: u32 = 22;
    pub const ENDS_EARLY: u32 = 23;
    pub const REPEATED_NAME: u32 = 24;
    pub const TOO_LARGE: u32 = 25;
    pub const PARAMETER_RANGE: u32 = 26;
    pub const EXTERIOR_RING: u32 = 27;
    pub const INTERIOR_RING: u32 = 28;
}

pub const UNKNOWN: u32 = 0;
pub const POINTS: u32 = 1;
pub const LINES: u32 = 2;
pub const POLYGONS: u32 = 3;

pub const TEXT: u32 = 1;
pub const FLOAT: u32 = 2;
pub const DOUBLE: u32 = 3;
pub const INT: u32 = 4;
pub const UINT: u32 = 5;
pub const SINT: u32 = 6;
pub const BOOL: u32 = 7;

pub const CHANGE_TURNED_RING: u32 = 1;
pub const CHANGE_REPEATED_POINT: u32 = 2;
pub const CHANGE_PART_LEFT_OUT: u32 = 3;
pub const CHANGE_FEATURE_LEFT_OUT: u32 = 4;
pub const CHANGE_MOVED_RING: u32 = 5;

pub const UNMENDED_RINGS_CROSS: u32 = 1;
pub const UNMENDED_TOO_MANY_STEPS: u32 = 2;
pub const UNMENDED_ANOTHER_RULE: u32 = 3;

pub const NOTE_NO_LAYERS: u32 = 1;
pub const NOTE_FOREIGN: u32 = 2;
pub const NOTE_NO_FEATURES: u32 = 3;
pub const NOTE_REPEATED_ID: u32 = 4;
pub const NOTE_FLAT_RING: u32 = 5;
pub const NOTE_CLOSED_TWICE: u32 = 6;

pub const FINDING_ZERO_EXTENT: u32 = 1;
pub const FINDING_NO_GEOMETRY: u32 = 2;
pub const FINDING_UNKNOWN_GEOMETRY: u32 = 3;
pub const FINDING_FAR_POINT: u32 = 4;
pub const FINDING_LARGE_ID: u32 = 5;
pub const FINDING_LARGE_NUMBER: u32 = 6;

/// The causes of an `mvt_rows_fault`.
pub mod rows_cause {
    pub const MVT_ROWS_NAME_SPAN: u32 = 1;
    pub const MVT_ROWS_NAME: u32 = 2;
    pub const MVT_ROWS_KEYS_SPAN: u32 = 3;
    pub const MVT_ROWS_KEY: u32 = 4;
    pub const MVT_ROWS_VALUES_SPAN: u32 = 5;
    pub const MVT_ROWS_VALUE: u32 = 6;
    pub const MVT_ROWS_FEATURES_SPAN: u32 = 7;
    pub const MVT_ROWS_BYTES_SPAN: u32 = 8;
    pub const MVT_ROWS_HAS_ID: u32 = 9;
    pub const MVT_ROWS_TAGS_SPAN: u32 = 10;
    pub const MVT_ROWS_ODD_TAGS: u32 = 11;
    pub const MVT_ROWS_KEY_INDEX: u32 = 12;
    pub const MVT_ROWS_VALUE_INDEX: u32 = 13;
    pub const MVT_ROWS_REPEATED_KEY: u32 = 14;
    pub const MVT_ROWS_KIND: u32 = 15;
    pub const MVT_ROWS_GEOMETRY: u32 = 16;
    pub const MVT_ROWS_DRAWING: u32 = 17;
    pub const MVT_ROWS_BYTES: u32 = 18;
    pub const MVT_ROWS_REPEATED_NAME: u32 = 19;
}

/// What bytes look like that are no tile.
pub mod lookalike {
    pub const GZIP: u32 = 1;
    pub const ZLIB: u32 = 2;
    pub const ZSTD: u32 = 3;
    pub const PNG: u32 = 4;
    pub const SQLITE: u32 = 5;
    pub const PMTILES: u32 = 6;
    pub const JSON: u32 = 7;
    pub const HTML: u32 = 8;
    pub const JPEG: u32 = 9;
    pub const GIF: u32 = 10;
    pub const WEBP: u32 = 11;
    pub const FLAT_GEOBUF: u32 = 12;
    pub const XZ: u32 = 13;
    pub const BZIP2: u32 = 14;
    pub const ZIP: u32 = 15;
    pub const PDF: u32 = 16;
    pub const OSM_PBF: u32 = 17;
    pub const XML: u32 = 18;
    pub const PLAIN_TEXT: u32 = 19;
    pub const BROTLI: u32 = 20;
    pub const MBTILES: u32 = 21;
}

/// What an integer of a geometry is, in an `mvt_step`.
pub mod role {
    pub const NOTHING: u32 = 0;
    pub const MOVE_TO: u32 = 1;
    pub const LINE_TO: u32 = 2;
    pub const MOVE_X: u32 = 3;
    pub const MOVE_Y: u32 = 4;
    pub const LINE_X: u32 = 5;
    pub const LINE_Y: u32 = 6;
    pub const CLOSE_PATH: u32 = 7;
}

#[repr(C)]
#[derive(Clone, Copy, Debug, PartialEq, Eq)]
pub struct Bytes {
    pub data: *const u8,
    pub len: usize,
}

#[repr(C)]
#[derive(Clone, Copy, Debug, PartialEq, Eq)]
pub struct Fault {
    pub layer: i64,
    pub feature: i64,
    pub at: u64,
    pub cause: u32,
    pub name: Bytes,
}

#[repr(C)]
#[derive(Clone, Copy, Debug, PartialEq, Eq)]
pub struct Span {
    pub start: u64,
    pub len: u64,
}

#[repr(C)]
#[derive(Clone, Copy, Debug, PartialEq, Eq)]
pub struct Layer {
    pub version: u32,
    pub extent: u32,
    pub name: Span,
    pub features: Span,
    pub keys: Span,
    pub values: Span,
    pub bytes: Span,
}

#[repr(C)]
#[derive(Clone, Copy, Debug, PartialEq, Eq)]
pub struct Feature {
    pub id: u64,
    pub has_id: u32,
    pub kind: u32,
    pub tags: Span,
    pub parts: Span,
    pub integers: Span,
}

#[repr(C)]
#[derive(Clone, Copy, Debug, PartialEq, Eq)]
pub struct Value {
    pub kind: u32,
    pub bits: u64,
    pub text: Span,
}

#[repr(C)]
#[derive(Clone, Copy, Debug, PartialEq, Eq)]
pub struct Part {
    pub exterior: u32,
    pub points: Span,
}

#[repr(C)]
#[derive(Clone, Copy, Debug, PartialEq, Eq)]
pub struct Point {
    pub x: i32,
    pub y: i32,
}

#[repr(C)]
#[derive(Clone, Copy, Debug, PartialEq, Eq)]
pub struct Tile {
    pub layers: *const Layer,
    pub layer_count: usize,
    pub features: *const Feature,
    pub feature_count: usize,
    pub keys: *const Span,
    pub key_count: usize,
    pub values: *const Value,
    pub value_count: usize,
    pub tags: *const u32,
    pub tag_count: usize,
    pub parts: *const Part,
    pub part_count: usize,
    pub points: *const Point,
    pub point_count: usize,
    pub integers: *const u32,
    pub integer_count: usize,
    pub texts: *const u8,
    pub text_len: usize,
}

#[repr(C)]
#[derive(Clone, Copy, Debug, PartialEq, Eq)]
pub struct ChangeRow {
    pub kind: u32,
    pub layer: u64,
    pub feature: u64,
    pub part: u64,
    pub count: u64,
    pub to: u64,
}

#[repr(C)]
#[derive(Clone, Copy, Debug, PartialEq, Eq)]
pub struct Mended {
    pub bytes: Bytes,
    pub changes: *const ChangeRow,
    pub change_count: usize,
}

#[repr(C)]
#[derive(Clone, Copy, Debug, PartialEq, Eq)]
pub struct UnmendedRow {
    pub kind: u32,
    pub layer: u64,
    pub feature: u64,
    pub ring: u64,
    pub other: u64,
}

#[repr(C)]
#[derive(Clone, Copy, Debug, PartialEq, Eq)]
pub struct NoteRow {
    pub kind: u32,
    pub version: u32,
    pub layer: u64,
    pub feature: u64,
    pub ring: u64,
    pub earlier: u64,
}

#[repr(C)]
#[derive(Clone, Copy, Debug, PartialEq, Eq)]
pub struct Summary {
    pub layers: u64,
    pub features: u64,
    pub is_canonical: u32,
    pub notes: *const NoteRow,
    pub note_count: usize,
}

#[repr(C)]
#[derive(Clone, Copy, Debug, PartialEq, Eq)]
pub struct FindingRow {
    pub kind: u32,
    pub has_feature: u32,
    pub layer: u64,
    pub feature: u64,
    pub attribute: u64,
    pub x: i32,
    pub y: i32,
}

#[repr(C)]
#[derive(Clone, Copy, Debug, PartialEq, Eq)]
pub struct Findings {
    pub rows: *const FindingRow,
    pub count: usize,
}

#[repr(C)]
#[derive(Clone, Copy, Debug, PartialEq, Eq)]
pub struct RowsFault {
    pub layer: u64,
    pub feature: u64,
    pub has_feature: u32,
    pub cause: u32,
    pub rule: u32,
    pub has_point: u32,
    pub part: u64,
    pub point: u64,
}

#[repr(C)]
#[derive(Clone, Copy, Debug, PartialEq, Eq)]
pub struct Decoder {
    pub held: *mut c_void,
}

#[repr(C)]
#[derive(Clone, Copy, Debug, PartialEq, Eq)]
pub struct Builder {
    pub held: *mut c_void,
}

#[repr(C)]
#[derive(Clone, Copy, Debug, PartialEq, Eq)]
pub struct Any {
    pub kind: u32,
    pub bits: u64,
    pub text: Bytes,
}

#[repr(C)]
#[derive(Clone, Copy, Debug, PartialEq, Eq)]
pub struct Place {
    pub layer_name: Bytes,
    pub has_layer_name: u32,
    pub has_feature_id: u32,
    pub feature_id: u64,
    pub start: u64,
    pub end: u64,
}

#[repr(C)]
#[derive(Clone, Copy, Debug, PartialEq, Eq)]
pub struct Bounds {
    pub start: u64,
    pub body: u64,
    pub end: u64,
}

#[repr(C)]
#[derive(Clone, Copy, Debug, PartialEq, Eq)]
pub struct Field {
    pub number: u32,
    pub wire_type: u32,
    pub bounds: Bounds,
}

#[repr(C)]
#[derive(Clone, Copy, Debug, PartialEq, Eq)]
pub struct Integer {
    pub value: u64,
    pub start: u64,
    pub end: u64,
}

#[repr(C)]
#[derive(Clone, Copy, Debug, PartialEq, Eq)]
pub struct Step {
    pub role: u32,
    pub left: u32,
    pub x: i64,
    pub y: i64,
}

#[repr(C)]
#[derive(Clone, Copy, Debug, PartialEq, Eq)]
pub struct Surroundings {
    pub place: Place,
    pub has_layer: u32,
    pub has_extent: u32,
    pub has_feature: u32,
    pub has_kind: u32,
    pub layer: Bounds,
    pub feature: Bounds,
    pub message: Bounds,
    pub extent: u64,
    pub kind: u64,
    pub list: u32,
    pub keys: *const Bounds,
    pub key_count: usize,
    pub tags: *const Integer,
    pub tag_count: usize,
    pub geometry: *const Integer,
    pub geometry_count: usize,
    pub steps: *const Step,
    pub step_count: usize,
    pub fields: *const Field,
    pub field_count: usize,
}

extern "C" {
    pub fn mvt_rewrite(bytes: *const u8, len: usize, out: *mut Bytes, fault: *mut Fault) -> u32;
    pub fn mvt_mend(
        bytes: *const u8,
        len: usize,
        out: *mut Mended,
        fault: *mut Fault,
        why: *mut UnmendedRow,
    ) -> u32;
    pub fn mvt_extract(
        bytes: *const u8,
        len: usize,
        names: *const Bytes,
        count: usize,
        out: *mut Bytes,
        fault: *mut Fault,
        missing: *mut usize,
    ) -> u32;
    pub fn mvt_json(bytes: *const u8, len: usize, out: *mut Bytes, fault: *mut Fault) -> u32;
    pub fn mvt_svg(bytes: *const u8, len: usize, out: *mut Bytes, fault: *mut Fault) -> u32;
    pub fn mvt_judge(bytes: *const u8, len: usize, fault: *mut Fault) -> u32;
    pub fn mvt_report(bytes: *const u8, len: usize, out: *mut Bytes, fault: *mut Fault) -> u32;
    pub fn mvt_lint(bytes: *const u8, len: usize, out: *mut Bytes, fault: *mut Fault) -> u32;
    pub fn mvt_survey(bytes: *const u8, len: usize, out: *mut Summary, fault: *mut Fault) -> u32;
    pub fn mvt_lint_rows(
        bytes: *const u8,
        len: usize,
        out: *mut Findings,
        fault: *mut Fault,
    ) -> u32;
    pub fn mvt_read(
        bytes: *const u8,
        len: usize,
        most: u64,
        out: *mut Tile,
        fault: *mut Fault,
    ) -> u32;
    pub fn mvt_read_layer(
        bytes: *const u8,
        len: usize,
        name: Bytes,
        out: *mut Tile,
        fault: *mut Fault,
    ) -> u32;
    pub fn mvt_write(tile: *const Tile, out: *mut Bytes, fault: *mut RowsFault) -> u32;
    pub fn mvt_judge_rows(tile: *const Tile, fault: *mut RowsFault) -> u32;
    pub fn mvt_rows_cause_text(cause: u32) -> *const c_char;
    pub fn mvt_decoder_new(decoder: *mut Decoder, most: u64) -> u32;
    pub fn mvt_decoder_feed(
        decoder: *mut Decoder,
        piece: *const u8,
        len: usize,
        fault: *mut Fault,
    ) -> u32;
    pub fn mvt_decoder_finish(decoder: *mut Decoder, out: *mut Tile, fault: *mut Fault) -> u32;
    pub fn mvt_decoder_free(decoder: *mut Decoder);
    pub fn mvt_text(text: *const c_char) -> Bytes;
    pub fn mvt_any_text(text: Bytes) -> Any;
    pub fn mvt_any_float(number: f32) -> Any;
    pub fn mvt_any_double(number: f64) -> Any;
    pub fn mvt_any_int(number: i64) -> Any;
    pub fn mvt_any_uint(number: u64) -> Any;
    pub fn mvt_any_sint(number: i64) -> Any;
    pub fn mvt_any_bool(truth: c_int) -> Any;
    pub fn mvt_builder_layer(builder: *mut Builder, name: Bytes, extent: u32) -> u32;
    pub fn mvt_builder_foreign(builder: *mut Builder, version: u32, bytes: Bytes) -> u32;
    pub fn mvt_builder_key(builder: *mut Builder, key: Bytes, index: *mut u32) -> u32;
    pub fn mvt_builder_value(builder: *mut Builder, value: Any, index: *mut u32) -> u32;
    pub fn mvt_builder_feature(builder: *mut Builder, kind: u32) -> u32;
    pub fn mvt_builder_id(builder: *mut Builder, id: u64) -> u32;
    pub fn mvt_builder_tag(builder: *mut Builder, key: Bytes, value: Any) -> u32;
    pub fn mvt_builder_tag_at(builder: *mut Builder, key: u32, value: u32) -> u32;
    pub fn mvt_builder_line(builder: *mut Builder) -> u32;
    pub fn mvt_builder_ring(builder: *mut Builder, exterior: c_int) -> u32;
    pub fn mvt_builder_point(builder: *mut Builder, x: i32, y: i32) -> u32;
    pub fn mvt_builder_points(builder: *mut Builder, points: *const Point, count: usize) -> u32;
    pub fn mvt_builder_integers(builder: *mut Builder, integers: *const u32, count: usize) -> u32;
    pub fn mvt_builder_add(
        builder: *mut Builder,
        kind: u32,
        id: *const u64,
        tags: *const u32,
        tag_count: usize,
        parts: *const Part,
        part_count: usize,
        points: *const Point,
        point_count: usize,
    ) -> u32;
    pub fn mvt_builder_drop(builder: *mut Builder) -> u32;
    pub fn mvt_builder_rows(builder: *mut Builder, out: *mut Tile) -> u32;
    pub fn mvt_builder_finish(builder: *mut Builder, out: *mut Bytes, fault: *mut RowsFault)
        -> u32;
    pub fn mvt_builder_free(builder: *mut Builder);
    pub fn mvt_version() -> *const c_char;
    pub fn mvt_status_text(status: u32) -> *const c_char;
    pub fn mvt_cause_text(cause: u32) -> *const c_char;
    pub fn mvt_note_text(note: u32) -> *const c_char;
    pub fn mvt_finding_text(finding: u32) -> *const c_char;
    pub fn mvt_looks_like(bytes: *const u8, len: usize) -> c_int;
    pub fn mvt_explain(bytes: *const u8, len: usize, fault: *const Fault) -> *const c_char;
    pub fn mvt_explain_head(
        head: *const u8,
        len: usize,
        size: u64,
        fault: *const Fault,
    ) -> *const c_char;
    pub fn mvt_locate(bytes: *const u8, len: usize, fault: *const Fault, out: *mut Place);
    pub fn mvt_around(
        bytes: *const u8,
        len: usize,
        fault: *const Fault,
        out: *mut Surroundings,
    ) -> u32;
    pub fn mvt_bytes_free(bytes: *mut Bytes);
    pub fn mvt_tile_free(tile: *mut Tile);
    pub fn mvt_summary_free(summary: *mut Summary);
    pub fn mvt_findings_free(findings: *mut Findings);
    pub fn mvt_mended_free(mended: *mut Mended);
    pub fn mvt_surroundings_free(surroundings: *mut Surroundings);
}
