//! The entries of crate probes as C sees them on x86-64: a slice is its address and its length, and a result of more than two
//! words is written where a first argument says, which comes back. Said so, it holds wherever the module is compiled for.

/// A call's number, and two rows.
#[repr(C)]
#[derive(PartialEq)]
pub struct TwoRows {
    pub no: u32,
    pub above: [u16; 65],
    pub left: [u16; 65],
}

/// A call's number, and the corner and two rows.
#[repr(C)]
#[derive(PartialEq)]
pub struct References {
    pub no: u32,
    pub rows: PlaneRows,
}

/// A call's number, and the rows of Cb and of Cr.
#[repr(C)]
#[derive(PartialEq)]
pub struct ReferencePair {
    pub no: u32,
    pub planes: [PlaneRows; 2],
}

#[repr(C)]
#[derive(Clone, Copy, PartialEq)]
pub struct PlaneRows {
    pub corner: u16,
    pub above: [u16; 65],
    pub left: [u16; 65],
}

impl PlaneRows {
    pub const ZERO: PlaneRows = PlaneRows { corner: 0, above: [0; 65], left: [0; 65] };

    /// As the Rust has them.
    pub fn tuple(&self) -> (u16, [u16; 65], [u16; 65]) {
        (self.corner, self.above, self.left)
    }
}

/// What a call of walk or replay gives: its number and the block that it is about, how many blocks it did, how many are done.
#[repr(C)]
#[derive(Debug, PartialEq)]
pub struct Step {
    pub no: u32,
    pub block: u32,
    pub did: u32,
    pub done: u32,
}

/// A call's number, and its value.
#[repr(C)]
#[derive(Debug, PartialEq)]
pub struct Answer {
    pub no: u32,
    pub value: u32,
}

/// A call's number, and the mode with its sum.
#[repr(C)]
#[derive(Debug, PartialEq)]
pub struct Choice {
    pub no: u32,
    pub mode: u32,
    pub sum: u32,
}

/// A plan's number, and the block that it is about.
#[repr(C)]
#[derive(Debug, PartialEq)]
pub struct PlanAnswer {
    pub no: u32,
    pub block: u32,
}

unsafe extern "C" {
    pub fn salvrunde_probe_predict_planar_into(
        above: *const u16,
        above_len: usize,
        left: *const u16,
        left_len: usize,
        n: usize,
        pred: *mut u16,
        pred_len: usize,
    ) -> u32;

    pub fn salvrunde_probe_predict_dc_into(
        above: *const u16,
        above_len: usize,
        left: *const u16,
        left_len: usize,
        n: usize,
        filter_boundary: bool,
        pred: *mut u16,
        pred_len: usize,
    ) -> u32;

    pub fn salvrunde_probe_predict_angular_slices(
        corner: u16,
        above: *const u16,
        above_len: usize,
        left: *const u16,
        left_len: usize,
        n: usize,
        mode: u8,
        filter_boundary: bool,
        bits: u32,
        pred: *mut u16,
        pred_len: usize,
        refs: *mut u16,
        refs_len: usize,
        indices: *mut u32,
        indices_len: usize,
        fractions: *mut u32,
        fractions_len: usize,
    ) -> u32;

    pub fn salvrunde_probe_predict_chroma_tb_slices(
        mode: u8,
        corner: u16,
        above: *const u16,
        above_len: usize,
        left: *const u16,
        left_len: usize,
        n: usize,
        bits: u32,
        pred: *mut u16,
        pred_len: usize,
        refs: *mut u16,
        refs_len: usize,
        indices: *mut u32,
        indices_len: usize,
        fractions: *mut u32,
        fractions_len: usize,
    ) -> u32;

    pub fn salvrunde_probe_filter_references(
        out: *mut TwoRows,
        corner: u16,
        above: *const u16,
        above_len: usize,
        left: *const u16,
        left_len: usize,
        n: usize,
    ) -> *mut TwoRows;

    pub fn salvrunde_probe_filter_luma_refs(
        out: *mut References,
        corner: u16,
        above: *const u16,
        above_len: usize,
        left: *const u16,
        left_len: usize,
        n: usize,
        bits: u32,
    ) -> *mut References;

    pub fn salvrunde_probe_get_reference_samples(
        out: *mut References,
        plane: *const u16,
        plane_len: usize,
        bits: u32,
        width: u32,
        height: u32,
        ctu: u32,
        unit: u32,
        row: u32,
        col: u32,
        n: usize,
    ) -> *mut References;

    pub fn salvrunde_probe_get_reference_samples_chroma_pair(
        out: *mut ReferencePair,
        plane_cb: *const u16,
        plane_cb_len: usize,
        plane_cr: *const u16,
        plane_cr_len: usize,
        bits: u32,
        format: u32,
        luma_w: u32,
        luma_h: u32,
        ctu: u32,
        min_luma_pu: u32,
        row: u32,
        col: u32,
        n: usize,
        cur_luma_row: u32,
        cur_luma_col: u32,
    ) -> *mut ReferencePair;

    pub fn salvrunde_probe_compute_residual_i32_into(
        orig: *const u16,
        orig_len: usize,
        pred: *const u16,
        pred_len: usize,
        n: usize,
        residual: *mut i32,
        residual_len: usize,
    ) -> u32;

    pub fn salvrunde_probe_picture_checksum(
        bits: u32,
        width: u32,
        height: u32,
        first: u32,
        end: u32,
        sum: u32,
        plane: *const u16,
        plane_length: usize,
    ) -> Answer;
    pub fn salvrunde_probe_choose_mode(
        corner: u16,
        above: *const u16,
        above_len: usize,
        left: *const u16,
        left_len: usize,
        source: *const u16,
        source_len: usize,
        n: usize,
        bits: u32,
        pred: *mut u16,
        pred_len: usize,
        refs: *mut u16,
        refs_len: usize,
        indices: *mut u32,
        indices_len: usize,
        fractions: *mut u32,
        fractions_len: usize,
    ) -> Choice;
    pub fn salvrunde_probe_choose_early(
        corner: u16,
        above: *const u16,
        above_len: usize,
        left: *const u16,
        left_len: usize,
        source: *const u16,
        source_len: usize,
        n: usize,
        bits: u32,
        pred: *mut u16,
        pred_len: usize,
        refs: *mut u16,
        refs_len: usize,
        indices: *mut u32,
        indices_len: usize,
        fractions: *mut u32,
        fractions_len: usize,
    ) -> Choice;
    pub fn salvrunde_probe_reconstruct_into(
        pred: *const u16,
        pred_len: usize,
        residual: *const i32,
        residual_len: usize,
        n: usize,
        bits: u32,
        out: *mut u16,
        out_len: usize,
    ) -> u32;

    pub fn salvrunde_probe_walk(
        done: u32,
        bits: u32,
        width: u32,
        height: u32,
        ctu: u32,
        rows: *const u32,
        rows_len: usize,
        cols: *const u32,
        cols_len: usize,
        sides: *const u32,
        sides_len: usize,
        modes: *const u32,
        modes_len: usize,
        source: *const u16,
        source_len: usize,
        work: *mut u16,
        work_len: usize,
        residuals: *mut i32,
        residuals_len: usize,
        refs: *mut u16,
        refs_len: usize,
        indices: *mut u32,
        indices_len: usize,
        fractions: *mut u32,
        fractions_len: usize,
        grant: u32,
    ) -> Step;

    pub fn salvrunde_probe_replay(
        done: u32,
        bits: u32,
        width: u32,
        height: u32,
        ctu: u32,
        rows: *const u32,
        rows_len: usize,
        cols: *const u32,
        cols_len: usize,
        sides: *const u32,
        sides_len: usize,
        modes: *const u32,
        modes_len: usize,
        residuals: *const i32,
        residuals_len: usize,
        plane: *mut u16,
        plane_len: usize,
        refs: *mut u16,
        refs_len: usize,
        indices: *mut u32,
        indices_len: usize,
        fractions: *mut u32,
        fractions_len: usize,
        grant: u32,
    ) -> Step;
}

// The entries of crate camera, as include/salvrunde.h declares them.
unsafe extern "C" {
    pub fn salvrunde_luma_refs(
        bits: u32,
        width: u32,
        height: u32,
        ctu: u32,
        unit: u32,
        row: u32,
        col: u32,
        n: u32,
        plane: *const u8,
        plane_bytes: usize,
        out: *mut u8,
        out_bytes: usize,
    ) -> u32;

    pub fn salvrunde_chroma_refs_ctu(
        bits: u32,
        format: u32,
        luma_width: u32,
        luma_height: u32,
        ctu: u32,
        unit: u32,
        row: u32,
        col: u32,
        n: u32,
        cur_luma_row: u32,
        cur_luma_col: u32,
        cb: *const u8,
        cb_bytes: usize,
        cr: *const u8,
        cr_bytes: usize,
        out: *mut u8,
        out_bytes: usize,
    ) -> u32;

    pub fn salvrunde_planar(
        n: u32,
        above: *const u8,
        above_bytes: usize,
        left: *const u8,
        left_bytes: usize,
        out: *mut u8,
        out_bytes: usize,
    ) -> u32;

    pub fn salvrunde_dc(
        n: u32,
        edge: u32,
        above: *const u8,
        above_bytes: usize,
        left: *const u8,
        left_bytes: usize,
        out: *mut u8,
        out_bytes: usize,
    ) -> u32;

    pub fn salvrunde_angular(
        bits: u32,
        n: u32,
        mode: u32,
        edge: u32,
        corner: u16,
        above: *const u8,
        above_bytes: usize,
        left: *const u8,
        left_bytes: usize,
        out: *mut u8,
        out_bytes: usize,
    ) -> u32;

    pub fn salvrunde_chroma_block(
        bits: u32,
        n: u32,
        mode: u32,
        corner: u16,
        above: *const u8,
        above_bytes: usize,
        left: *const u8,
        left_bytes: usize,
        out: *mut u8,
        out_bytes: usize,
    ) -> u32;

    pub fn salvrunde_count_errors(
        a: *const u8,
        a_len: usize,
        b: *const u8,
        b_len: usize,
        plan: *const u8,
        plan_len: usize,
        report: *mut u8,
        report_len: usize,
    ) -> u32;

    pub fn salvrunde_replay(
        done: u32,
        bits: u32,
        width: u32,
        height: u32,
        ctu: u32,
        grant: u32,
        plan: *const u8,
        plan_bytes: usize,
        residuals: *const u8,
        residuals_bytes: usize,
        plane: *mut u8,
        plane_bytes: usize,
        result: *mut u8,
        result_bytes: usize,
    ) -> u32;
}

// The pointers that entries on bytes and their doors are called through.
pub type PlanarDoor = unsafe extern "C" fn(*const u16, usize, *const u16, usize, usize, *mut u16, usize) -> u32;
pub type PlanarEntry = unsafe extern "C" fn(u32, *const u8, usize, *const u8, usize, *mut u8, usize) -> u32;
pub type DcDoor = unsafe extern "C" fn(*const u16, usize, *const u16, usize, usize, bool, *mut u16, usize) -> u32;
pub type DcEntry = unsafe extern "C" fn(u32, u32, *const u8, usize, *const u8, usize, *mut u8, usize) -> u32;
pub type AngularDoor = unsafe extern "C" fn(
    u16,
    *const u16,
    usize,
    *const u16,
    usize,
    usize,
    u8,
    bool,
    u32,
    *mut u16,
    usize,
    *mut u16,
    usize,
    *mut u32,
    usize,
    *mut u32,
    usize,
) -> u32;
pub type AngularEntry = unsafe extern "C" fn(u32, u32, u32, u32, u16, *const u8, usize, *const u8, usize, *mut u8, usize) -> u32;
pub type ChromaDoor = unsafe extern "C" fn(
    u8,
    u16,
    *const u16,
    usize,
    *const u16,
    usize,
    usize,
    u32,
    *mut u16,
    usize,
    *mut u16,
    usize,
    *mut u32,
    usize,
    *mut u32,
    usize,
) -> u32;
pub type ChromaEntry = unsafe extern "C" fn(u32, u32, u32, u16, *const u8, usize, *const u8, usize, *mut u8, usize) -> u32;
pub type LumaRefsDoor =
    unsafe extern "C" fn(*mut References, *const u16, usize, u32, u32, u32, u32, u32, u32, u32, usize) -> *mut References;
pub type LumaRefsEntry = unsafe extern "C" fn(u32, u32, u32, u32, u32, u32, u32, u32, *const u8, usize, *mut u8, usize) -> u32;
pub type ChromaRefsDoor = unsafe extern "C" fn(
    *mut ReferencePair,
    *const u16,
    usize,
    *const u16,
    usize,
    u32,
    u32,
    u32,
    u32,
    u32,
    u32,
    u32,
    u32,
    usize,
    u32,
    u32,
) -> *mut ReferencePair;
pub type ChromaRefsEntry = unsafe extern "C" fn(
    u32,
    u32,
    u32,
    u32,
    u32,
    u32,
    u32,
    u32,
    u32,
    u32,
    u32,
    *const u8,
    usize,
    *const u8,
    usize,
    *mut u8,
    usize,
) -> u32;
pub type ReplayEntry =
    unsafe extern "C" fn(u32, u32, u32, u32, u32, u32, *const u8, usize, *const u8, usize, *mut u8, usize, *mut u8, usize) -> u32;
