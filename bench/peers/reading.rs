// `validate` of persons by plain Rust: lines read by serde_json into its tree and then into operations, rows in the standard library's maps,
// and one key whose values no two persons share.
use serde_json::{Map, Value as Json};
use std::collections::{BTreeMap, BTreeSet, HashMap};
use std::io::BufRead;

#[derive(Clone, PartialEq, Eq, Hash, PartialOrd, Ord)]
enum Value { Int(i64), Text(String), Bool(bool) }

struct Row { labels: BTreeSet<String>, props: BTreeMap<String, Value> }

enum Op { AddNode { id: u64, row: Row } }

fn value(json: &Json) -> Option<Value> {
    match json {
        Json::Bool(truth) => Some(Value::Bool(*truth)),
        Json::Number(number) => number.as_i64().map(Value::Int),
        Json::String(text) => Some(Value::Text(text.clone())),
        _ => None,
    }
}

fn labels(json: Option<&Json>) -> Option<BTreeSet<String>> {
    let Some(json) = json else { return Some(BTreeSet::new()) };
    json.as_array()?.iter().map(|label| label.as_str().map(str::to_string)).collect()
}

fn props(json: Option<&Json>) -> Option<BTreeMap<String, Value>> {
    let Some(json) = json else { return Some(BTreeMap::new()) };
    json.as_object()?.iter().map(|(key, json)| Some((key.clone(), value(json)?))).collect()
}

fn op(members: &Map<String, Json>) -> Option<Op> {
    if !members.keys().all(|name| matches!(name.as_str(), "add_node" | "labels" | "props")) { return None; }
    let row = Row { labels: labels(members.get("labels"))?, props: props(members.get("props"))? };
    Some(Op::AddNode { id: members.get("add_node")?.as_u64()?, row })
}

fn read(line: &[u8]) -> Option<Vec<Op>> {
    let tree: Json = serde_json::from_slice(line).ok()?;
    tree.as_object()?.get("ops")?.as_array()?.iter().map(|json| op(json.as_object()?)).collect()
}

fn is_person(row: &Row) -> bool {
    row.labels.len() == 1 && row.labels.contains("Person") && row.props.len() == 2
        && matches!(row.props.get("id"), Some(Value::Int(_))) && matches!(row.props.get("mail"), Some(Value::Text(_)))
}

fn main() {
    let mut nodes: HashMap<u64, Row> = HashMap::new();
    let mut input = std::io::stdin().lock();
    let mut line = Vec::new();
    while input.read_until(b'\n', &mut line).unwrap() > 0 && line != b"---\n" { line.clear(); }
    line.clear();
    while input.read_until(b'\n', &mut line).unwrap() > 0 {
        for Op::AddNode { id, row } in read(&line).expect("a line of JSON") {
            assert!(nodes.insert(id, row).is_none(), "the node is there");
        }
        line.clear();
    }
    let mut ids: Vec<u64> = nodes.keys().copied().collect();
    ids.sort();
    let untyped = ids.iter().filter(|id| !is_person(&nodes[id])).count();
    let mut owners: HashMap<&Value, u64> = HashMap::new();
    let shared = ids.iter().filter(|id| owners.insert(&nodes[id].props["mail"], **id).is_some()).count();
    println!("{}", untyped + shared);
}
