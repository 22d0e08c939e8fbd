// The workload over the standard library's maps, with rows in ordered ones: a transaction is a list of operations, which are checked first and then done.
use std::collections::{BTreeMap, BTreeSet, HashMap};

#[derive(Clone, PartialEq, Eq, Hash)]
enum Value { Int(i64), Text(String) }

#[derive(Clone, Default)]
struct Row { labels: BTreeSet<String>, props: BTreeMap<String, Value> }

#[derive(Default)]
struct Node { row: Row, outgoing: BTreeSet<u64>, incoming: BTreeSet<u64> }

struct Edge { source: u64, target: u64, row: Row }

enum Op { AddNode { id: u64, row: Row }, AddEdge { id: u64, source: u64, target: u64, row: Row } }

#[derive(Default)]
struct Graph { nodes: HashMap<u64, Node>, edges: HashMap<u64, Edge>, mails: HashMap<Value, u64>, ids: HashMap<Value, u64> }

fn is_person(row: &Row) -> bool {
    row.labels.len() == 1 && row.labels.contains("Person") && row.props.len() == 2
        && matches!(row.props.get("id"), Some(Value::Int(_))) && matches!(row.props.get("mail"), Some(Value::Text(_)))
}

fn knows(row: &Row) -> bool { row.labels.len() == 1 && row.labels.contains("knows") && row.props.is_empty() }

impl Graph {
    // Every node is a person, and no two persons share a mail or an id. An edge joins two nodes, which are persons then.
    fn admits(&self, ops: &[Op]) -> bool {
        let (mut nodes, mut mails, mut ids) = (BTreeSet::new(), BTreeSet::new(), BTreeSet::new());
        ops.iter().all(|op| match op {
            Op::AddNode { id, row } => {
                if !is_person(row) || self.nodes.contains_key(id) || !nodes.insert(*id) { return false; }
                let (mail, number) = (&row.props["mail"], &row.props["id"]);
                let Value::Text(text) = mail else { return false };
                let Value::Int(int) = number else { return false };
                !self.mails.contains_key(mail) && !self.ids.contains_key(number) && mails.insert(text.clone()) && ids.insert(*int)
            }
            Op::AddEdge { id, source, target, row } => {
                knows(row) && !self.edges.contains_key(id)
                    && [source, target].iter().all(|end| self.nodes.contains_key(end) || nodes.contains(end))
            }
        })
    }

    fn apply(&mut self, ops: Vec<Op>) -> bool {
        if !self.admits(&ops) { return false; }
        for op in ops {
            match op {
                Op::AddNode { id, row } => {
                    self.mails.insert(row.props["mail"].clone(), id);
                    self.ids.insert(row.props["id"].clone(), id);
                    self.nodes.entry(id).or_default().row = row;
                }
                Op::AddEdge { id, source, target, row } => {
                    self.nodes.entry(source).or_default().outgoing.insert(id);
                    self.nodes.entry(target).or_default().incoming.insert(id);
                    self.edges.insert(id, Edge { source, target, row });
                }
            }
        }
        true
    }
}

fn labels(label: &str) -> BTreeSet<String> { BTreeSet::from([label.to_string()]) }

fn made(start: u64, number: u64) -> Vec<Op> {
    let mut props = BTreeMap::new();
    props.insert("id".to_string(), Value::Int(number as i64));
    props.insert("mail".to_string(), Value::Text(format!("u{number}@x.org")));
    let mut ops = vec![Op::AddNode { id: number, row: Row { labels: labels("Person"), props } }];
    if number >= 2 {
        let target = 1 + (start % 4_294_967_296 + 7 * number) % (number - 1);
        ops.push(Op::AddEdge { id: number, source: number, target, row: Row { labels: labels("knows"), props: BTreeMap::new() } });
    }
    ops
}

fn main() {
    let mut words = std::env::args().skip(1).map(|word| word.parse::<u64>().unwrap());
    let (start, count) = (words.next().unwrap(), words.next().unwrap());
    let mut graph = Graph::default();
    let committed = (1..=count).filter(|number| graph.apply(made(start, *number))).count() as u64;
    let into_first = graph.nodes.get(&1).map_or(0, |node| node.incoming.len());
    let carried = graph.edges.values().filter(|edge| edge.source != edge.target && knows(&edge.row)).count();
    println!("gen committed={committed} refused={} nodes={} edges={carried} in1={into_first}", count - committed, graph.nodes.len());
}
