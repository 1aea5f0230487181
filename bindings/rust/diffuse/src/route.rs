/// A best route.
#[derive(Clone, Debug, PartialEq, Eq)]
pub struct Route {
    /// The best code.
    pub code: u64,
    /// The vertices from the source to the target, along least parents: one more than the least hops.
    pub vertices: Vec<u32>,
}

/// A best route and its arcs, of a graph whose arcs were numbered.
#[derive(Clone, Debug, PartialEq, Eq)]
pub struct NumberedRoute {
    /// The best code, which is that of the arcs.
    pub code: u64,
    /// The vertices from the source to the target, along least parents: one more than the least hops.
    pub vertices: Vec<u32>,
    /// The arc of each step, by its place in the list that numbered the arcs. Of parallel arcs it is the one that extends the
    /// value of the route so far best, and of those that do the first.
    pub arcs: Vec<u32>,
}
