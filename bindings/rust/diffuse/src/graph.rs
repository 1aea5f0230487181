use crate::error::{self, Error};
use crate::tree::{Label, Tree, Wrong};
use crate::{Algebra, Arc, NumberedRoute, Route, Stop, Table};
use diffuse_sys::*;
use std::cell::{Cell, UnsafeCell};
use std::fmt;

const NO_ROUTE: i32 = 1;
const NO_ROOM: i32 = 2;
const WRONG: i32 = 6;

/// Room for so many vertices is given first; if more are near, it is asked again with room for them.
const FEW: usize = 1024;

/// The first places of a list, and no memory for the others.
fn first(mut list: Vec<u32>, count: u32) -> Vec<u32> {
    list.truncate(count as usize);
    list.shrink_to_fit();
    list
}

/// A graph in memory. It is freed with the last that shares it.
pub struct Graph {
    handle: UnsafeCell<Handle>,
    /// The room for vertices with which a route is asked: the longest had it.
    room: Cell<usize>,
    /// The room with which a near answer is asked: twice what the last one took.
    near_room: Cell<usize>,
}

// SAFETY: a handle may go from one thread to another. It is not `Sync`, so that only one call at a time uses it.
unsafe impl Send for Graph {}

impl Graph {
    /// A graph whose handle is still closed.
    fn closed() -> Graph {
        Graph { handle: UnsafeCell::new(Handle::CLOSED), room: Cell::new(FEW), near_room: Cell::new(FEW) }
    }

    /// The graph of vertices 1 to `vertices` and these arcs.
    pub fn open(vertices: u32, arcs: &[Arc]) -> Result<Graph, Error> {
        let graph = Graph::closed();
        // SAFETY: the slice is valid for its length, and the handle is closed and in use nowhere else.
        error::done(unsafe { diffuse_graph_open(vertices, arcs.as_ptr(), arcs.len(), graph.handle.get()) })?;
        Ok(graph)
    }

    /// The graph of the bytes of a .gr file of the 9th DIMACS challenge.
    pub fn read(text: &[u8]) -> Result<Graph, Error> {
        let (graph, mut line) = (Graph::closed(), 0);
        // SAFETY: as in `open`.
        let status = unsafe { diffuse_graph_read(text.as_ptr(), text.len(), graph.handle.get(), &mut line) };
        error::read(status, line)?;
        Ok(graph)
    }

    /// The same graph in memory, with the factors and the numbers of arcs that it has, for another thread.
    pub fn share(&self) -> Result<Graph, Error> {
        let second = Graph::closed();
        // SAFETY: a `Graph` is not `Sync`, so no other call uses its handle during this one; this holds for all calls below.
        error::done(unsafe { diffuse_graph_share(self.handle.get(), second.handle.get()) })?;
        Ok(second)
    }

    /// From now on calls of this graph, but for [`share`](Graph::share), end with [`Error::Stopped`] once the stop is set; with none
    /// they never do. A graph that [`share`](Graph::share) or [`reweigh`](Graph::reweigh) makes has none.
    pub fn stop_by(&self, stop: Option<&Stop>) -> Result<(), Error> {
        let mut none = StopHandle::CLOSED;
        // SAFETY: as in `share`; the lock of the stop is held, or the closed one is in use nowhere else.
        error::done(match stop {
            Some(stop) => stop.with(|handle| unsafe { diffuse_graph_stop_by(self.handle.get(), handle) }),
            None => unsafe { diffuse_graph_stop_by(self.handle.get(), &mut none) },
        })
    }

    /// How many vertices there are. They are numbered from 1.
    pub fn vertices(&self) -> u32 {
        // SAFETY: as in `share`.
        unsafe { diffuse_graph_vertices(self.handle.get()) }
    }

    /// How many arcs there are.
    pub fn arcs(&self) -> usize {
        // SAFETY: as in `share`.
        unsafe { diffuse_graph_arcs(self.handle.get()) }
    }

    /// The arcs that leave a vertex, in the order in which they were given.
    pub fn arcs_from(&self, vertex: u32) -> Result<Vec<Arc>, Error> {
        let (mut arcs, mut count) = (vec![Arc { tail: 0, head: 0, weight: 0 }; 8], 0);
        loop {
            // SAFETY: as in `share`; the slice is valid for its length.
            let status = unsafe { diffuse_graph_arcs_from(self.handle.get(), vertex, arcs.as_mut_ptr(), arcs.len(), &mut count) };
            if status != NO_ROOM {
                error::done(status)?;
                arcs.truncate(count);
                return Ok(arcs);
            }
            arcs.resize(count, arcs[0]);
        }
    }

    /// Asks for a route, first in the room of the longest so far, and reports how many hops it has; none if there is no route.
    fn hops_in_room(&self, mut ask: impl FnMut(usize, &mut u32) -> i32) -> Result<Option<u32>, Error> {
        let n = self.vertices() as usize;
        loop {
            let mut hops = 0;
            let status = ask(self.room.get().min(n), &mut hops);
            if status != NO_ROOM {
                return if status == NO_ROUTE { Ok(None) } else { error::done(status).map(|()| Some(hops)) };
            }
            self.room.set(2 * (hops as usize + 1));
        }
    }

    /// A best route from a source to a target; none if no walk between them has a value.
    pub fn route(&self, algebra: Algebra, source: u32, target: u32) -> Result<Option<Route>, Error> {
        let (number, limit) = algebra.number_and_limit();
        let (mut code, mut vertices) = (0, Vec::new());
        let found = self.hops_in_room(|room, hops| {
            vertices.resize(room, 0);
            // SAFETY: as in `share`; the room is valid for its length.
            unsafe {
                diffuse_graph_route(
                    self.handle.get(),
                    number,
                    limit,
                    source,
                    target,
                    &mut code,
                    hops,
                    vertices.as_mut_ptr(),
                    room,
                )
            }
        })?;
        Ok(found.map(|hops| Route { code, vertices: first(vertices, hops + 1) }))
    }

    /// Numbers the arcs by their places in a list, for [`route_arcs`](Graph::route_arcs): the arcs that were given to
    /// [`open`](Graph::open), or the same in another order, if those of one tail are in the order of [`arcs_from`](Graph::arcs_from).
    ///
    /// Refused with [`Error::OtherArcs`] if they are other arcs. A graph that [`reweigh`](Graph::reweigh) makes is not numbered.
    pub fn number(&self, arcs: &[Arc]) -> Result<(), Error> {
        // SAFETY: as in `share`; the slice is valid for its length.
        error::done(unsafe { diffuse_graph_number(self.handle.get(), arcs.as_ptr(), arcs.len()) })
    }

    /// A best route from a source to a target and the arcs that it takes; none if no walk between them has a value.
    ///
    /// Refused with [`Error::NoNumbers`] if the arcs were not numbered.
    pub fn route_arcs(&self, algebra: Algebra, source: u32, target: u32) -> Result<Option<NumberedRoute>, Error> {
        let (number, limit) = algebra.number_and_limit();
        let (mut code, mut vertices, mut arcs) = (0, Vec::new(), Vec::new());
        let found = self.hops_in_room(|room, hops| {
            vertices.resize(room, 0);
            arcs.resize(room, 0);
            let (to, by) = (vertices.as_mut_ptr(), arcs.as_mut_ptr());
            // SAFETY: as in `share`; each list is valid for the room.
            unsafe {
                diffuse_graph_route_arcs(self.handle.get(), number, limit, source, target, &mut code, hops, to, room, by, room)
            }
        })?;
        Ok(found.map(|hops| NumberedRoute { code, vertices: first(vertices, hops + 1), arcs: first(arcs, hops) }))
    }

    /// For each vertex what is best from the nearest of the sources.
    pub fn tree(&self, algebra: Algebra, sources: &[u32]) -> Result<Tree, Error> {
        let (number, limit) = algebra.number_and_limit();
        let n = self.vertices() as usize;
        let mut tree = Tree::unreached(n);
        // SAFETY: as in `share`; each slice is valid for its length.
        error::done(unsafe {
            diffuse_graph_tree(
                self.handle.get(),
                number,
                limit,
                sources.as_ptr(),
                sources.len(),
                tree.codes.as_mut_ptr(),
                n,
                tree.hops.as_mut_ptr(),
                n,
                tree.parents.as_mut_ptr(),
                n,
            )
        })?;
        Ok(tree)
    }

    /// The vertices that are reached from the nearest of the sources, the best first, each with its label; equal codes are in the
    /// order of their hops, and then of the vertices. It costs what it returns: less than a tree, if [`Algebra::Within`] reaches
    /// only a part of the graph.
    pub fn near(&self, algebra: Algebra, sources: &[u32]) -> Result<Vec<(u32, Label)>, Error> {
        let mut count = self.near_room.get().min(self.vertices() as usize);
        loop {
            let (mut vertices, mut tree) = (vec![0; count], Tree::unreached(count));
            let status = self.near_into(algebra, sources, &mut vertices, &mut tree, &mut count);
            if status != NO_ROOM {
                error::done(status)?;
                self.near_room.set(FEW.max(2 * count));
                vertices.truncate(count);
                return Ok(vertices.into_iter().zip(tree.labels()).collect());
            }
        }
    }

    /// Writes what is near into lists, and how many vertices these are; returns the status.
    fn near_into(&self, algebra: Algebra, sources: &[u32], vertices: &mut [u32], tree: &mut Tree, count: &mut usize) -> i32 {
        let (number, limit) = algebra.number_and_limit();
        // SAFETY: as in `share`; each slice is valid for its length.
        unsafe {
            diffuse_graph_near(
                self.handle.get(),
                number,
                limit,
                sources.as_ptr(),
                sources.len(),
                vertices.as_mut_ptr(),
                vertices.len(),
                tree.codes.as_mut_ptr(),
                tree.codes.len(),
                tree.hops.as_mut_ptr(),
                tree.hops.len(),
                tree.parents.as_mut_ptr(),
                tree.parents.len(),
                count,
            )
        }
    }

    /// The best codes from each of the sources to each of the targets. Each source takes a search, unless the graph was factored.
    pub fn table(&self, algebra: Algebra, sources: &[u32], targets: &[u32]) -> Result<Table, Error> {
        let (number, limit) = algebra.number_and_limit();
        let mut codes = vec![Tree::UNREACHED; sources.len() * targets.len()];
        // SAFETY: as in `share`; each slice is valid for its length.
        error::done(unsafe {
            diffuse_graph_table(
                self.handle.get(),
                number,
                limit,
                sources.as_ptr(),
                sources.len(),
                targets.as_ptr(),
                targets.len(),
                codes.as_mut_ptr(),
                codes.len(),
            )
        })?;
        Ok(Table { codes, targets: targets.len() })
    }

    /// Factors the graph for an algebra. Afterwards routes, trees and tables of this graph, and of those that are shared from it
    /// later, are the same: a far route or a table takes a fraction of the time, and a far tree about half. What is near is still
    /// found by a search.
    ///
    /// `Shortest` and `Within` have one factoring, `Hops` has its own, and the others have none. A graph that is refused is
    /// searched as before.
    pub fn factor(&self, algebra: Algebra) -> Result<(), Error> {
        // SAFETY: as in `share`.
        error::done(unsafe { diffuse_graph_factor(self.handle.get(), algebra.number_and_limit().0) })
    }

    /// Factors the graph for an algebra by an order of elimination: the place of each vertex in it, from 0, as `diffuse order`
    /// writes them. What it had for the algebra goes.
    ///
    /// Refused with [`Error::OtherSize`] if there is not one place for each vertex, and with [`Error::NoOrder`] if two are the same
    /// or one is too great.
    pub fn factor_by(&self, algebra: Algebra, places: &[u32]) -> Result<(), Error> {
        let number = algebra.number_and_limit().0;
        // SAFETY: as in `share`; the slice is valid for its length.
        error::done(unsafe { diffuse_graph_factor_by(self.handle.get(), number, places.as_ptr(), places.len()) })
    }

    /// A second graph, of other arcs on the same vertices, factored as this one is, over the same links, in about half the time.
    ///
    /// Refused with [`Error::TooHeavy`] if the weights are too great for factors, and with [`Error::NoLink`] if an arc joins
    /// vertices that no arc of this graph joins, and that the factors do not link. Then it can be opened and factored anew.
    pub fn reweigh(&self, arcs: &[Arc]) -> Result<Graph, Error> {
        let second = Graph::closed();
        // SAFETY: as in `share`; the slice is valid for its length.
        error::done(unsafe { diffuse_graph_reweigh(self.handle.get(), arcs.as_ptr(), arcs.len(), second.handle.get()) })?;
        Ok(second)
    }

    /// Judges a tree from these sources: none if it is right, else the first vertex that is wrong. Nothing is solved.
    pub fn check(&self, algebra: Algebra, sources: &[u32], tree: &Tree) -> Result<Option<Wrong>, Error> {
        let (number, limit) = algebra.number_and_limit();
        let (mut vertex, mut reason) = (0, 0);
        // SAFETY: as in `share`; each slice is valid for its length.
        let status = unsafe {
            diffuse_graph_check(
                self.handle.get(),
                number,
                limit,
                sources.as_ptr(),
                sources.len(),
                tree.codes.as_ptr(),
                tree.codes.len(),
                tree.hops.as_ptr(),
                tree.hops.len(),
                tree.parents.as_ptr(),
                tree.parents.len(),
                &mut vertex,
                &mut reason,
            )
        };
        if status == WRONG {
            return Ok(Some(Wrong { vertex, reason: reason.into() }));
        }
        error::done(status)?;
        Ok(None)
    }
}

impl fmt::Debug for Graph {
    fn fmt(&self, out: &mut fmt::Formatter<'_>) -> fmt::Result {
        out.debug_struct("Graph").field("vertices", &self.vertices()).field("arcs", &self.arcs()).finish()
    }
}

impl Drop for Graph {
    fn drop(&mut self) {
        // SAFETY: nothing uses the handle any more, and it was open or is closed.
        unsafe { diffuse_graph_close(self.handle.get()) }
    }
}
