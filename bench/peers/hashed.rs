// The workload over the standard library's hash maps from a number to a place, with rows in vectors, in as few steps as the checks leave: each
// operation is judged and done at once, by one look at each map that it concerns, and where one is refused, those before it in its transaction
// are taken back, the last first, which stands last in its vector then.
use std::collections::{hash_map::Entry, HashMap};

enum Value { Int(i64), Text(String) }

// Labels in their order, and properties in that of their keys.
struct Row { labels: Vec<String>, props: Vec<(String, Value)> }

// Edges by number, in its order.
struct Node { row: Row, outgoing: Vec<u64>, incoming: Vec<u64> }

struct Edge { source: u64, target: u64, row: Row }

enum Op { AddNode { id: u64, row: Row }, AddEdge { id: u64, source: u64, target: u64, row: Row } }

// What a transaction added.
enum Added { Node(u64), Edge(u64) }

#[derive(Default)]
struct Graph {
    nodes: Vec<Node>,
    edges: Vec<Edge>,
    node_places: HashMap<u64, usize>,
    edge_places: HashMap<u64, usize>,
    mails: HashMap<String, u64>,
    ids: HashMap<i64, u64>,
}

// The id and the mail of a person, where a row is one.
fn person(row: &Row) -> Option<(i64, &str)> {
    match (&row.labels[..], &row.props[..]) {
        ([label], [(first, Value::Int(number)), (second, Value::Text(mail))]) if label == "Person" && first == "id" && second == "mail" => Some((*number, mail)),
        _ => None,
    }
}

fn knows(row: &Row) -> bool { row.props.is_empty() && matches!(&row.labels[..], [label] if label == "knows") }

fn add(list: &mut Vec<u64>, id: u64) {
    let place = if list.last().is_none_or(|last| *last < id) { list.len() } else { list.partition_point(|other| *other < id) };
    list.insert(place, id);
}

fn remove(list: &mut Vec<u64>, id: u64) {
    if let Ok(place) = list.binary_search(&id) { list.remove(place); }
}

impl Graph {
    // Every node is a person, and no two persons share a mail or an id.
    fn add_node(&mut self, id: u64, row: Row) -> bool {
        let Some((number, mail)) = person(&row) else { return false };
        let Entry::Vacant(node) = self.node_places.entry(id) else { return false };
        let Entry::Vacant(by_id) = self.ids.entry(number) else { return false };
        let Entry::Vacant(by_mail) = self.mails.entry(mail.to_string()) else { return false };
        by_id.insert(id);
        by_mail.insert(id);
        node.insert(self.nodes.len());
        self.nodes.push(Node { row, outgoing: Vec::new(), incoming: Vec::new() });
        true
    }

    // An edge joins two nodes, which are persons then.
    fn add_edge(&mut self, id: u64, source: u64, target: u64, row: Row) -> bool {
        if !knows(&row) { return false; }
        let (Some(from), Some(to)) = (self.node_places.get(&source), self.node_places.get(&target)) else { return false };
        let Entry::Vacant(edge) = self.edge_places.entry(id) else { return false };
        edge.insert(self.edges.len());
        add(&mut self.nodes[*from].outgoing, id);
        add(&mut self.nodes[*to].incoming, id);
        self.edges.push(Edge { source, target, row });
        true
    }

    fn take_back(&mut self, added: Added) {
        match added {
            Added::Node(id) => {
                self.node_places.remove(&id);
                let Some(node) = self.nodes.pop() else { return };
                let Some((number, mail)) = person(&node.row) else { return };
                self.ids.remove(&number);
                self.mails.remove(mail);
            }
            Added::Edge(id) => {
                self.edge_places.remove(&id);
                let Some(edge) = self.edges.pop() else { return };
                remove(&mut self.nodes[self.node_places[&edge.source]].outgoing, id);
                remove(&mut self.nodes[self.node_places[&edge.target]].incoming, id);
            }
        }
    }

    fn apply(&mut self, ops: Vec<Op>) -> bool {
        let mut done = Vec::with_capacity(ops.len());
        for op in ops {
            let (added, taken) = match op {
                Op::AddNode { id, row } => (Added::Node(id), self.add_node(id, row)),
                Op::AddEdge { id, source, target, row } => (Added::Edge(id), self.add_edge(id, source, target, row)),
            };
            if !taken {
                while let Some(before) = done.pop() { self.take_back(before); }
                return false;
            }
            done.push(added);
        }
        true
    }
}

fn labels(label: &str) -> Vec<String> { vec![label.to_string()] }

fn made(start: u64, number: u64) -> Vec<Op> {
    let props = vec![("id".to_string(), Value::Int(number as i64)), ("mail".to_string(), Value::Text(format!("u{number}@x.org")))];
    let mut ops = vec![Op::AddNode { id: number, row: Row { labels: labels("Person"), props } }];
    if number >= 2 {
        let target = 1 + (start % 4_294_967_296 + 7 * number) % (number - 1);
        ops.push(Op::AddEdge { id: number, source: number, target, row: Row { labels: labels("knows"), props: Vec::new() } });
    }
    ops
}

fn main() {
    let mut words = std::env::args().skip(1).map(|word| word.parse::<u64>().unwrap());
    let (start, count) = (words.next().unwrap(), words.next().unwrap());
    let mut graph = Graph::default();
    let committed = (1..=count).filter(|number| graph.apply(made(start, *number))).count() as u64;
    let into_first = graph.node_places.get(&1).map_or(0, |place| graph.nodes[*place].incoming.len());
    let carried = graph.edges.iter().filter(|edge| edge.source != edge.target && knows(&edge.row)).count();
    println!("gen committed={committed} refused={} nodes={} edges={carried} in1={into_first}", count - committed, graph.nodes.len());
}
