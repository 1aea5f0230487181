//! The five vertices of the README, all worked out by hand, and each refusal.
use diffuse::{Algebra, Arc, Error, Graph, Label, NumberedRoute, Reason, Route, Stop, TextFault, Tree, Wrong, version};
use std::thread;

const TEXT: &[u8] = b"p sp 5 7\na 1 2 4\na 1 3 1\na 3 2 2\na 2 4 5\na 3 4 8\na 4 4 0\na 5 1 3\n";

fn five() -> Graph {
    Graph::read(TEXT).unwrap()
}

fn arc(tail: u32, head: u32, weight: u32) -> Arc {
    Arc { tail, head, weight }
}

#[test]
fn answers_under_each_algebra() {
    let (graph, route) = (five(), |code, vertices: &[u32]| Some(Route { code, vertices: vertices.to_vec() }));
    for (algebra, wanted) in [
        (Algebra::Shortest, route(8, &[1, 3, 2, 4])),
        (Algebra::Widest, route(4, &[1, 2, 4])),
        (Algebra::Reach, route(0, &[1, 2, 4])),
        (Algebra::Hops, route(2, &[1, 2, 4])),
        (Algebra::Reliable, route(20, &[1, 2, 4])),
        (Algebra::Within(8), route(8, &[1, 3, 2, 4])),
        (Algebra::Within(7), None),
    ] {
        assert_eq!(graph.route(algebra, 1, 4), Ok(wanted), "{algebra:?}");
    }
    assert_eq!((graph.vertices(), graph.arcs()), (5, 7));
}

#[test]
fn a_tree_and_its_check() {
    let graph = five();
    let mut tree = graph.tree(Algebra::Shortest, &[1]).unwrap();
    assert_eq!(tree.label(1), Some(Label { code: 0, hops: 0, parent: None }));
    assert_eq!(tree.label(4), Some(Label { code: 8, hops: 3, parent: Some(2) }));
    assert_eq!([tree.label(5), tree.label(0), tree.label(6)], [None; 3]);
    assert_eq!(graph.check(Algebra::Shortest, &[1], &tree), Ok(None));
    tree.codes[3] = 9;
    let wrong = Wrong { vertex: 4, reason: Reason::NotBest };
    assert_eq!(graph.check(Algebra::Shortest, &[1], &tree), Ok(Some(wrong)));
}

#[test]
fn each_reason_by_its_name() {
    let graph = five();
    for (vertex, line, reason) in [
        (1, (0, 1, 0), Reason::NotASourceLine),
        (2, (4, 2, 3), Reason::NotBest),
        (5, (7, 0, 0), Reason::NoParent),
        (4, (8, 4, 2), Reason::OtherHops),
        (4, (Tree::UNREACHED, 0, 0), Reason::HasWalk),
    ] {
        let mut tree = graph.tree(Algebra::Shortest, &[1]).unwrap();
        let place = vertex as usize - 1;
        (tree.codes[place], tree.hops[place], tree.parents[place]) = line;
        assert_eq!(graph.check(Algebra::Shortest, &[1], &tree), Ok(Some(Wrong { vertex, reason })));
    }
    let two_ways = Graph::open(4, &[arc(1, 2, 1), arc(1, 3, 1), arc(2, 4, 1), arc(3, 4, 1)]).unwrap();
    let tree = Tree { codes: vec![0, 1, 1, 2], hops: vec![0, 1, 1, 2], parents: vec![0, 1, 1, 3] };
    let wrong = Wrong { vertex: 4, reason: Reason::LesserParent };
    assert_eq!(two_ways.check(Algebra::Shortest, &[1], &tree), Ok(Some(wrong)));
}

#[test]
fn a_table_by_searches_and_by_factors() {
    let graph = five();
    for _ in 0..2 {
        let table = graph.table(Algebra::Shortest, &[1, 5], &[4, 1, 5]).unwrap();
        assert_eq!(table.codes, [8, 0, Tree::UNREACHED, 11, 3, 0]);
        assert_eq!([table.code(1, 0), table.code(0, 2), table.code(0, 3), table.code(2, 0)], [Some(11), None, None, None]);
        assert_eq!(graph.table(Algebra::Within(7), &[1], &[4]).unwrap().codes, [Tree::UNREACHED]);
        assert_eq!(graph.table(Algebra::Hops, &[], &[4]).unwrap().codes, []);
        assert_eq!(graph.route(Algebra::Shortest, 1, 4).unwrap().unwrap().vertices, [1, 3, 2, 4]);
        assert_eq!((graph.factor(Algebra::Shortest), graph.factor(Algebra::Hops)), (Ok(()), Ok(())));
    }
}

#[test]
fn factors_by_an_order() {
    let graph = five();
    for places in [[0, 1, 2, 3, 4], [4, 0, 3, 1, 2]] {
        assert_eq!(graph.factor_by(Algebra::Shortest, &places), Ok(()));
        assert_eq!(graph.table(Algebra::Shortest, &[1, 5], &[4, 1, 5]).unwrap().codes, [8, 0, Tree::UNREACHED, 11, 3, 0]);
    }
    assert_eq!(graph.factor_by(Algebra::Shortest, &[0, 1, 2, 3]), Err(Error::OtherSize));
    assert_eq!(graph.factor_by(Algebra::Hops, &[0, 1, 2, 3, 3]), Err(Error::NoOrder));
    assert_eq!(graph.factor_by(Algebra::Hops, &[1, 2, 3, 4, 5]), Err(Error::NoOrder));
}

#[test]
fn what_is_near() {
    let (graph, label) = (five(), |code, hops, parent| Label { code, hops, parent });
    let wanted = [(1, label(0, 0, None)), (3, label(1, 1, Some(1))), (2, label(3, 2, Some(3))), (4, label(8, 3, Some(2)))];
    for _ in 0..2 {
        assert_eq!(graph.near(Algebra::Within(3), &[1]).unwrap(), wanted[..3]);
        assert_eq!(graph.near(Algebra::Shortest, &[1]).unwrap(), wanted);
        assert_eq!(graph.near(Algebra::Hops, &[]).unwrap(), []);
        assert_eq!(graph.near(Algebra::Shortest, &[6]), Err(Error::NoVertex));
        assert_eq!(graph.factor(Algebra::Shortest), Ok(()));
    }
    let chain: Vec<Arc> = (1..5000).map(|v| arc(v, v + 1, 2)).collect();
    let graph = Graph::open(5000, &chain).unwrap();
    for limit in [9000, 9000, 2, 9000] {
        let (far, hops) = (graph.near(Algebra::Within(limit), &[1]).unwrap(), limit as u32 / 2);
        assert_eq!((far.len(), far.last()), (hops as usize + 1, Some(&(hops + 1, label(limit, hops, Some(hops))))));
    }
}

#[test]
fn other_weights_over_the_same_links() {
    let (arcs, others) = ([arc(1, 2, 4), arc(2, 4, 5), arc(5, 1, 3)], [arc(2, 4, 1), arc(1, 2, 2), arc(1, 5, 7)]);
    let graph = Graph::open(5, &arcs).unwrap();
    for _ in 0..2 {
        let second = graph.reweigh(&others).unwrap();
        assert_eq!(second.tree(Algebra::Shortest, &[1]).unwrap().codes, [0, 2, Tree::UNREACHED, 3, 7]);
        assert_eq!(graph.route(Algebra::Shortest, 5, 4).unwrap().unwrap().code, 12);
        assert_eq!(second.reweigh(&[arc(1, 6, 1)]).unwrap_err(), Error::NoVertex);
        graph.factor(Algebra::Shortest).unwrap();
    }
    assert_eq!(graph.reweigh(&[arc(3, 4, 1)]).unwrap_err(), Error::NoLink);
    let weighed = |weight| (1..65536).map(|v| arc(v, v + 1, weight)).collect::<Vec<Arc>>();
    let chain = Graph::open(65536, &weighed(1)).unwrap();
    chain.factor(Algebra::Shortest).unwrap();
    assert_eq!(chain.reweigh(&weighed(u32::MAX)).unwrap_err(), Error::TooHeavy);
    assert_eq!(chain.reweigh(&weighed(2)).unwrap().route(Algebra::Shortest, 1, 65536).unwrap().unwrap().code, 131070);
}

#[test]
fn what_is_not_factored() {
    let complete: Vec<Arc> = (1..=200).flat_map(|v| (1..=200).map(move |w| arc(v, w, 1))).collect();
    let star: Vec<Arc> = (2..=1000).map(|v| arc(1, v, 1)).collect();
    let chain: Vec<Arc> = (1..65536).map(|v| arc(v, v + 1, u32::MAX)).collect();
    assert_eq!(Graph::open(200, &complete).unwrap().factor(Algebra::Shortest), Err(Error::TooDense));
    assert_eq!(Graph::open(1000, &star).unwrap().factor(Algebra::Shortest), Ok(()));
    assert_eq!(Graph::open(65536, &chain).unwrap().factor(Algebra::Within(0)), Err(Error::TooHeavy));
    for algebra in [Algebra::Widest, Algebra::Reach, Algebra::Reliable] {
        assert_eq!(five().factor(algebra), Err(Error::NoFactors));
    }
}

#[test]
fn arcs_are_read_back() {
    assert_eq!(five().arcs_from(3), Ok(vec![arc(3, 2, 2), arc(3, 4, 8)]));
    let star: Vec<Arc> = (1..=20).map(|v| arc(1, v, v)).collect();
    let graph = Graph::open(21, &star).unwrap();
    assert_eq!((graph.arcs_from(1), graph.arcs_from(21)), (Ok(star), Ok(vec![])));
}

/// Parallel arcs of different and of equal weight, a loop, and a vertex that only its own arc joins.
fn parallel() -> Vec<Arc> {
    [(1, 2, 5), (1, 2, 3), (2, 3, 4), (1, 2, 3), (2, 3, 4), (3, 3, 0), (2, 3, 2), (1, 3, 9), (4, 1, 3)]
        .map(|(t, h, w)| arc(t, h, w))
        .into()
}

#[test]
fn the_arcs_of_a_route() {
    let graph = Graph::open(4, &parallel()).unwrap();
    assert_eq!(graph.route_arcs(Algebra::Shortest, 1, 3), Err(Error::NoNumbers));
    graph.number(&parallel()).unwrap();
    for graph in [&graph, &graph.share().unwrap()] {
        for _ in 0..2 {
            for (algebra, source, target, code, vertices, arcs) in [
                (Algebra::Shortest, 1, 3, 5, &[1, 2, 3][..], &[1, 6][..]),
                (Algebra::Widest, 1, 3, 9, &[1, 3], &[7]),
                (Algebra::Widest, 4, 2, 3, &[4, 1, 2], &[8, 0]),
                (Algebra::Reach, 1, 2, 0, &[1, 2], &[0]),
                (Algebra::Hops, 2, 3, 1, &[2, 3], &[2]),
                (Algebra::Reliable, 1, 2, 5_000_000, &[1, 2], &[0]),
                (Algebra::Within(3), 1, 2, 3, &[1, 2], &[1]),
                (Algebra::Shortest, 3, 3, 0, &[3], &[]),
            ] {
                let wanted = NumberedRoute { code, vertices: vertices.to_vec(), arcs: arcs.to_vec() };
                assert_eq!(graph.route_arcs(algebra, source, target), Ok(Some(wanted)), "{algebra:?}");
            }
            assert_eq!(graph.route_arcs(Algebra::Within(4), 1, 3), Ok(None));
            assert_eq!(graph.route_arcs(Algebra::Shortest, 1, 5), Err(Error::NoVertex));
            graph.factor(Algebra::Shortest).unwrap();
        }
    }
    assert_eq!(graph.reweigh(&parallel()).unwrap().route_arcs(Algebra::Shortest, 1, 3), Err(Error::NoNumbers));
}

#[test]
fn routes_of_all_lengths() {
    let arcs: Vec<Arc> = (1..9000).map(|v| arc(v, v + 1, 2)).collect();
    let graph = Graph::open(9000, &arcs).unwrap();
    graph.number(&arcs).unwrap();
    for target in [2, 1024, 1025, 5, 2500, 9000, 3] {
        let wanted =
            NumberedRoute { code: 2 * u64::from(target - 1), vertices: (1..=target).collect(), arcs: (0..target - 1).collect() };
        let route = graph.route(Algebra::Shortest, 1, target).unwrap().unwrap();
        assert_eq!((route.code, &route.vertices), (wanted.code, &wanted.vertices));
        assert_eq!(graph.route_arcs(Algebra::Within(1 << 40), 1, target), Ok(Some(wanted)));
    }
}

#[test]
fn arcs_are_numbered_in_another_order() {
    let (graph, mut arcs) = (Graph::open(4, &parallel()).unwrap(), parallel());
    arcs.sort_by_key(|arc| 4 - arc.tail);
    graph.number(&arcs).unwrap();
    let numbers = |graph: &Graph| graph.route_arcs(Algebra::Shortest, 1, 3).unwrap().unwrap().arcs;
    assert_eq!(numbers(&graph), [6, 4]);
    let mut swapped = parallel();
    swapped.swap(0, 1);
    let mut heavier = parallel();
    heavier[8].weight = 4;
    for other in [swapped, heavier, parallel()[1..].to_vec(), vec![arc(1, 5, 1)], vec![]] {
        assert_eq!(graph.number(&other), Err(Error::OtherArcs));
        assert_eq!(numbers(&graph), [6, 4]);
    }
    assert_eq!(Error::OtherArcs.to_string(), "arcs that are not those of the graph");
    assert_eq!(Error::NoNumbers.to_string(), "a graph whose arcs were not numbered");
}

#[test]
fn each_refusal() {
    let graph = five();
    assert_eq!(graph.arcs_from(6), Err(Error::NoVertex));
    assert_eq!(graph.route(Algebra::Shortest, 1, 6), Err(Error::NoVertex));
    assert_eq!(graph.tree(Algebra::Shortest, &[0]), Err(Error::NoVertex));
    assert_eq!(graph.table(Algebra::Shortest, &[1], &[6]), Err(Error::NoVertex));
    assert_eq!(graph.tree(Algebra::Within(1 << 63 | 1), &[1]), Err(Error::LimitTooGreat));
    let short = Tree { codes: vec![0], hops: vec![0], parents: vec![0] };
    assert_eq!(graph.check(Algebra::Shortest, &[1], &short), Err(Error::OtherSize));
    assert_eq!(Graph::open(2, &[arc(1, 3, 0)]).unwrap_err(), Error::NoVertex);
    assert_eq!(Graph::open(u32::MAX, &[]).unwrap_err(), Error::TooLarge);
    for (text, fault, line) in [
        (&b"a 1 2 4\n"[..], TextFault::NoProblem, 1),
        (b"p sp 5 0\np sp 5 0\n", TextFault::SecondProblem, 2),
        (b"p aux 5 0\n", TextFault::BadProblem, 1),
        (b"p sp 5 0\nx\n", TextFault::UnknownLine, 2),
        (b"p sp 5 1\na 1 2\n", TextFault::Fields, 2),
        (b"p sp 5 1\na 1 2 x\n", TextFault::NotANumber, 2),
        (b"p sp 5 1\na 1 2 4294967296\n", TextFault::Limit, 2),
        (b"p sp 5 1\nc\na 1 6 4\n", TextFault::NoVertex, 3),
        (b"p sp 5 0\na 1 2 4\n", TextFault::TooMany, 2),
        (b"p sp 5 1\n", TextFault::TooFew, 2),
    ] {
        assert_eq!(Graph::read(text).unwrap_err(), Error::Text { fault, line }, "{}", text.escape_ascii());
    }
    assert_eq!(Graph::read(b"p sp 5 1\n").unwrap_err().to_string(), "fault 19 in line 2");
}

#[test]
fn a_stop_ends_searches() {
    let chain: Vec<Arc> = (1..100_000).map(|v| arc(v, v + 1, 1)).collect();
    let (graph, stop) = (Graph::open(100_000, &chain).unwrap(), Stop::new().unwrap());
    graph.stop_by(Some(&stop)).unwrap();
    std::thread::scope(|scope| {
        scope.spawn(|| stop.set());
    });
    assert_eq!(graph.route(Algebra::Shortest, 1, 100_000), Err(Error::Stopped));
    assert_eq!(graph.tree(Algebra::Widest, &[1]).unwrap_err(), Error::Stopped);
    assert_eq!(graph.near(Algebra::Hops, &[1]).unwrap_err(), Error::Stopped);
    assert_eq!(graph.table(Algebra::Reach, &[1], &[2]).unwrap_err(), Error::Stopped);
    assert_eq!(graph.factor(Algebra::Shortest), Err(Error::Stopped));
    assert_eq!(Error::Stopped.to_string(), "stopped before there was an answer");
    stop.clear();
    assert_eq!(graph.route(Algebra::Shortest, 1, 100_000).unwrap().unwrap().code, 99_999);
    stop.set();
    assert_eq!(graph.share().unwrap().route(Algebra::Shortest, 1, 100_000).unwrap().unwrap().code, 99_999);
    graph.stop_by(None).unwrap();
    assert_eq!(graph.route(Algebra::Shortest, 1, 100_000).unwrap().unwrap().code, 99_999);
}

#[test]
fn threads_share_one_graph() {
    let graph = five();
    let threads = [2, 3, 4].map(|target| {
        let own = graph.share().unwrap();
        thread::spawn(move || own.route(Algebra::Shortest, 1, target).unwrap().unwrap().code)
    });
    drop(graph);
    assert_eq!(threads.map(|thread| thread.join().unwrap()), [3, 1, 8]);
}

#[test]
fn the_version_of_the_header() {
    assert_eq!(version(), 10200);
}
