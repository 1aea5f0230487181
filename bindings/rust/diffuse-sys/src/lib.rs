//! The C interface, as `include/diffuse.h` has it, which says what each call does and what its caller owes.
#![no_std]
#![allow(clippy::missing_safety_doc)]

/// An arc from `tail` to `head`. Vertices are numbered from 1.
#[repr(C)]
#[derive(Clone, Copy, Debug, PartialEq, Eq)]
pub struct Arc {
    pub tail: u32,
    pub head: u32,
    pub weight: u32,
}

/// A handle: closed, or open with a graph.
#[repr(C)]
#[derive(Debug)]
pub struct Handle {
    pub at: *mut u8,
    pub is_open: bool,
}

impl Handle {
    pub const CLOSED: Handle = Handle { at: core::ptr::null_mut(), is_open: false };
}

/// A stop: closed, or open with a flag of the library's.
#[repr(C)]
#[derive(Debug)]
pub struct StopHandle {
    pub at: *mut u8,
    pub is_open: bool,
}

impl StopHandle {
    pub const CLOSED: StopHandle = StopHandle { at: core::ptr::null_mut(), is_open: false };
}

unsafe extern "C" {
    pub fn diffuse_graph_open(vertices: u32, arcs: *const Arc, n_arcs: usize, graph: *mut Handle) -> i32;
    pub fn diffuse_graph_read(bytes: *const u8, n_bytes: usize, graph: *mut Handle, line: *mut u64) -> i32;
    pub fn diffuse_graph_share(graph: *mut Handle, second: *mut Handle) -> i32;
    pub fn diffuse_graph_close(graph: *mut Handle);
    pub fn diffuse_graph_vertices(graph: *mut Handle) -> u32;
    pub fn diffuse_graph_arcs(graph: *mut Handle) -> usize;
    pub fn diffuse_graph_arcs_from(graph: *mut Handle, vertex: u32, arcs: *mut Arc, n_arcs: usize, count: *mut usize) -> i32;
    pub fn diffuse_graph_route(
        graph: *mut Handle,
        algebra: u32,
        limit: u64,
        source: u32,
        target: u32,
        code: *mut u64,
        hops: *mut u32,
        room: *mut u32,
        n_room: usize,
    ) -> i32;
    pub fn diffuse_graph_number(graph: *mut Handle, arcs: *const Arc, n_arcs: usize) -> i32;
    pub fn diffuse_graph_route_arcs(
        graph: *mut Handle,
        algebra: u32,
        limit: u64,
        source: u32,
        target: u32,
        code: *mut u64,
        hops: *mut u32,
        room: *mut u32,
        n_room: usize,
        arcs: *mut u32,
        n_arcs: usize,
    ) -> i32;
    pub fn diffuse_graph_tree(
        graph: *mut Handle,
        algebra: u32,
        limit: u64,
        sources: *const u32,
        n_sources: usize,
        codes: *mut u64,
        n_codes: usize,
        hops: *mut u32,
        n_hops: usize,
        parents: *mut u32,
        n_parents: usize,
    ) -> i32;
    pub fn diffuse_graph_check(
        graph: *mut Handle,
        algebra: u32,
        limit: u64,
        sources: *const u32,
        n_sources: usize,
        codes: *const u64,
        n_codes: usize,
        hops: *const u32,
        n_hops: usize,
        parents: *const u32,
        n_parents: usize,
        vertex: *mut u32,
        reason: *mut u32,
    ) -> i32;
    pub fn diffuse_graph_table(
        graph: *mut Handle,
        algebra: u32,
        limit: u64,
        sources: *const u32,
        n_sources: usize,
        targets: *const u32,
        n_targets: usize,
        codes: *mut u64,
        n_codes: usize,
    ) -> i32;
    pub fn diffuse_graph_near(
        graph: *mut Handle,
        algebra: u32,
        limit: u64,
        sources: *const u32,
        n_sources: usize,
        vertices: *mut u32,
        n_vertices: usize,
        codes: *mut u64,
        n_codes: usize,
        hops: *mut u32,
        n_hops: usize,
        parents: *mut u32,
        n_parents: usize,
        count: *mut usize,
    ) -> i32;
    pub fn diffuse_graph_factor(graph: *mut Handle, algebra: u32) -> i32;
    pub fn diffuse_graph_factor_by(graph: *mut Handle, algebra: u32, places: *const u32, n_places: usize) -> i32;
    pub fn diffuse_graph_reweigh(graph: *mut Handle, arcs: *const Arc, n_arcs: usize, second: *mut Handle) -> i32;
    pub fn diffuse_stop_new(stop: *mut StopHandle) -> i32;
    pub fn diffuse_graph_stop_by(graph: *mut Handle, stop: *mut StopHandle) -> i32;
    pub fn diffuse_stop_set(stop: *mut StopHandle) -> i32;
    pub fn diffuse_stop_clear(stop: *mut StopHandle) -> i32;
    pub fn diffuse_stop_free(stop: *mut StopHandle);
    pub fn diffuse_version() -> u32;
}
