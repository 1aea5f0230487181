//! A near answer of a large graph takes short lists, not ones of all vertices.
use diffuse::{Algebra, Arc, Graph};
use std::alloc::{GlobalAlloc, Layout, System};
use std::sync::atomic::{AtomicUsize, Ordering};

/// How many bytes the longest list has that was made in Rust.
static MOST: AtomicUsize = AtomicUsize::new(0);

struct Noting;

// SAFETY: the system's allocator does what is asked.
unsafe impl GlobalAlloc for Noting {
    unsafe fn alloc(&self, layout: Layout) -> *mut u8 {
        MOST.fetch_max(layout.size(), Ordering::Relaxed);
        // SAFETY: as the caller promises.
        unsafe { System.alloc(layout) }
    }

    unsafe fn dealloc(&self, at: *mut u8, layout: Layout) {
        // SAFETY: as the caller promises.
        unsafe { System.dealloc(at, layout) }
    }
}

#[global_allocator]
static NOTING: Noting = Noting;

#[test]
fn near_answers_take_short_lists() {
    let arcs: Vec<Arc> = (1..200_000).map(|v| Arc { tail: v, head: v + 1, weight: 1 }).collect();
    let graph = Graph::open(200_000, &arcs).unwrap();
    graph.number(&arcs).unwrap();
    for _ in 0..2 {
        MOST.store(0, Ordering::Relaxed);
        assert_eq!(graph.route(Algebra::Shortest, 1, 5).unwrap().unwrap().vertices, [1, 2, 3, 4, 5]);
        assert_eq!(graph.route_arcs(Algebra::Shortest, 1, 5).unwrap().unwrap().arcs, [0, 1, 2, 3]);
        assert_eq!(graph.near(Algebra::Within(3), &[1]).unwrap().len(), 4);
        assert_eq!(graph.arcs_from(7).unwrap().len(), 1);
        assert_eq!(graph.table(Algebra::Shortest, &[1], &[2]).unwrap().codes, [1]);
        assert!(MOST.load(Ordering::Relaxed) <= 1024 * size_of::<u64>(), "{MOST:?}");
    }
}
