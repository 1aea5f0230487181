//! The five vertices: a route, a tree, a check of it, and a table by factors.
use diffuse::{Algebra, Arc, Error, Graph, Tree, Wrong};

fn print_route(graph: &Graph, source: u32, target: u32) -> Result<(), Error> {
    print!("from {source} to {target}: ");
    match graph.route(Algebra::Shortest, source, target)? {
        Some(route) => {
            let vertices: Vec<String> = route.vertices.iter().map(u32::to_string).collect();
            println!("{} by {}", route.code, vertices.join(" "));
        }
        None => println!("no route"),
    }
    Ok(())
}

fn print_check(graph: &Graph, tree: &Tree) -> Result<(), Error> {
    match graph.check(Algebra::Shortest, &[1], tree)? {
        Some(Wrong { vertex, reason }) => println!("wrong at {vertex} by reason {}", reason as u32),
        None => println!("right"),
    }
    Ok(())
}

fn print_table(graph: &Graph, sources: &[u32]) -> Result<(), Error> {
    graph.factor(Algebra::Shortest)?;
    let table = graph.table(Algebra::Shortest, sources, &[2, 4])?;
    for (source, row) in sources.iter().zip(table.codes.chunks(2)) {
        println!("from {source} to 2 and 4: {} {}", row[0], row[1]);
    }
    Ok(())
}

fn main() -> Result<(), Error> {
    let arcs = [(1, 2, 4), (1, 3, 1), (3, 2, 2), (2, 4, 5), (3, 4, 8), (4, 4, 0), (5, 1, 3)].map(|(tail, head, weight)| Arc {
        tail,
        head,
        weight,
    });
    let graph = Graph::open(5, &arcs)?;
    print_route(&graph, 1, 4)?;
    print_route(&graph, 1, 5)?;
    let mut tree = graph.tree(Algebra::Shortest, &[1])?;
    for vertex in 1..=graph.vertices() {
        match tree.label(vertex) {
            Some(label) => println!("{vertex}: {} {} {}", label.code, label.hops, label.parent.unwrap_or(0)),
            None => println!("{vertex}: unreached"),
        }
    }
    print_check(&graph, &tree)?;
    tree.codes[3] = 9;
    print_check(&graph, &tree)?;
    print_table(&graph, &[1, 5])
}
