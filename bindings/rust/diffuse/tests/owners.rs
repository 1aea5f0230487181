//! Who owns a graph or a stop frees it, once. `system_tests/rust` runs this with the address sanitizer too, which sees what is left.
use diffuse::{Algebra, Arc, Error, Graph, Stop};

fn chain(vertices: u32, weight: u32) -> Vec<Arc> {
    (1..vertices).map(|v| Arc { tail: v, head: v + 1, weight }).collect()
}

fn code(graph: &Graph, target: u32) -> Result<u64, Error> {
    graph.route(Algebra::Shortest, 1, target).map(|route| route.unwrap().code)
}

#[test]
fn what_is_assigned_over() {
    let mut graph = Graph::open(100, &chain(100, 2)).unwrap();
    assert_eq!(code(&graph, 100), Ok(198));
    graph = graph.share().unwrap();
    graph.factor(Algebra::Shortest).unwrap();
    graph = graph.reweigh(&chain(100, 3)).unwrap();
    assert_eq!(code(&graph, 100), Ok(297));
    let graphs: Vec<Graph> = (0..10).map(|_| graph.share().unwrap()).collect();
    graph = Graph::read(b"p sp 2 1\na 1 2 9\n").unwrap();
    assert_eq!((code(&graph, 2), code(&graphs[9], 100)), (Ok(9), Ok(297)));
    assert!(Graph::read(b"p sp 2 1\n").is_err());
}

#[test]
fn stops_that_are_dropped() {
    let graph = Graph::open(100_000, &chain(100_000, 1)).unwrap();
    for is_set in [false, true] {
        let mut stop = Stop::new().unwrap();
        stop.set();
        stop = Stop::new().unwrap();
        graph.stop_by(Some(&stop)).unwrap();
        if is_set {
            stop.set();
        }
        drop(stop);
        let wanted = if is_set { Err(Error::Stopped) } else { Ok(vec![99_999]) };
        assert_eq!(graph.table(Algebra::Shortest, &[1], &[100_000]).map(|table| table.codes), wanted);
    }
}
