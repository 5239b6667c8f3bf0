//! The toolbox beside OpenFst's own tools, on the recorded lattices, where they are installed (Debian's libfst-tools): the same
//! acceptor as `fstrmepsilon | fstdeterminize | fstminimize` gives, state by state, and so all word strings at their least costs;
//! and the word graph that the library is given, if nothing was pruned, has the same again.

use spireyerba::lattice::{reduce, Acceptor, Arc, Keep, State};
use spireyerba::text::{NamedGrammar, UtteranceReader};
use std::collections::HashMap;
use std::io::Write;
use std::path::{Path, PathBuf};
use std::process::{Command, Stdio};

/// The recordings over the office's words, and those over the recogniser's whole vocabulary, of which the office's words are left.
const OFFICE: usize = 60;
const GENERAL: usize = 12;
/// OpenFst's answer.
const TOOLS: &str = "fstcompile --acceptor | fstrmepsilon | fstdeterminize | fstminimize | fstprint --acceptor";

fn folder() -> PathBuf {
    Path::new(env!("CARGO_MANIFEST_DIR")).join("../examples/recogniser/recorded")
}

fn text(name: &str) -> String {
    std::fs::read_to_string(folder().join(name)).expect("a recording")
}

/// What a shell prints that reads this.
fn piped(command: &str, input: &str) -> Option<String> {
    let mut shell = Command::new("sh");
    shell.args(["-c", command]).stdin(Stdio::piped()).stdout(Stdio::piped()).stderr(Stdio::null());
    let mut child = shell.spawn().ok()?;
    let (mut stdin, input) = (child.stdin.take()?, input.to_owned());
    let writer = std::thread::spawn(move || stdin.write_all(input.as_bytes()));
    let output = child.wait_with_output().ok()?;
    writer.join().ok()?.ok()?;
    output.status.success().then(|| String::from_utf8_lossy(&output.stdout).into_owned())
}

/// An acceptor as OpenFst's text, with labels for words.
fn printed(acceptor: &Acceptor) -> String {
    let mut text = String::new();
    for (number, state) in acceptor.states().iter().enumerate() {
        for Arc { label, to, weight, .. } in &state.arcs {
            text += &format!("{number} {to} {label} {weight}\n");
        }
        text.extend(state.final_weight.map(|weight| format!("{number} {weight}\n")));
    }
    text
}

/// The acceptor of OpenFst's text, whose weights are whole numbers here.
fn parsed(text: &str) -> Acceptor {
    let mut states: Vec<State> = Vec::new();
    let mut start = None;
    for line in text.lines() {
        let items: Vec<&str> = line.split_whitespace().collect();
        let number = |place: usize| items[place].parse::<u32>().expect("a number");
        let weight =
            |place: usize| items.get(place).map_or(0, |item| item.parse::<f64>().expect("a weight").round() as i64);
        let count =
            items.iter().take(if items.len() > 2 { 2 } else { 1 }).map(|item| item.parse::<usize>().expect("a state"));
        let needed = count.max().unwrap_or_default() + 1;
        states.resize(states.len().max(needed), State::default());
        start.get_or_insert(number(0));
        match items.len() {
            1 | 2 => states[number(0) as usize].final_weight = Some(weight(1)),
            _ => states[number(0) as usize].arcs.push(Arc {
                label: number(2),
                to: number(1),
                weight: weight(3),
                source: 0,
            }),
        }
    }
    Acceptor::new(start.unwrap_or_default(), states).expect("no cycle")
}

/// OpenFst's answer to an acceptor, with weights pushed to its start, and the least weight.
fn theirs(acceptor: &Acceptor) -> (Acceptor, i64) {
    parsed(&piped(TOOLS, &printed(acceptor)).expect("OpenFst's answer")).push()
}

/// The state of one acceptor that each state of another is, where both have one path for each string; nothing if they differ: every
/// final weight, and the label, the weight and the end of every arc are compared.
fn same(one: &Acceptor, other: &Acceptor) -> Option<HashMap<u32, u32>> {
    let mut pairs = HashMap::from([(0, 0)]);
    let mut open = vec![(0, 0)];
    while let Some((here, there)) = open.pop() {
        let [here, there] = [(one, here), (other, there)].map(|(of, state)| sorted(&of.states()[state as usize]));
        if here.final_weight != there.final_weight || here.arcs.len() != there.arcs.len() {
            return None;
        }
        for (here, there) in here.arcs.iter().zip(&there.arcs) {
            let known = *pairs.entry(here.to).or_insert_with(|| {
                open.push((here.to, there.to));
                there.to
            });
            if (here.label, here.weight, known) != (there.label, there.weight, there.to) {
                return None;
            }
        }
    }
    Some(pairs)
}

/// A state with its arcs by their labels.
fn sorted(state: &State) -> State {
    let mut sorted = state.clone();
    sorted.arcs.sort_by_key(|arc| arc.label);
    sorted
}

/// How many strings there are, where each has one path.
fn strings(acceptor: &Acceptor) -> u128 {
    let mut onward = vec![0_u128; acceptor.states().len()];
    for (number, state) in acceptor.states().iter().enumerate().rev() {
        let behind: u128 = state.arcs.iter().map(|arc| onward[arc.to as usize]).sum();
        onward[number] = behind + u128::from(state.final_weight.is_some());
    }
    onward[0]
}

/// What was compared.
#[derive(Debug, Default)]
struct Compared {
    lattices: usize,
    graphs: usize,
    states: usize,
    strings: u128,
}

impl Compared {
    fn take(&mut self, name: &str, lattice: &Acceptor) {
        let words = lattice.rm_epsilon(usize::MAX).and_then(|words| words.determinize(usize::MAX));
        let (pushed, least) = words.expect("no limit").push();
        let (ours, (theirs, their_least)) = (pushed.minimize(), theirs(lattice));
        let pairs = same(&ours, &theirs).unwrap_or_else(|| panic!("{name}: other strings or costs"));
        assert_eq!(
            (least, ours.states().len(), pairs.len()),
            (their_least, theirs.states().len(), pairs.len()),
            "{name}"
        );
        let reduced = reduce(lattice, Keep::Strings).expect("what weighs the least fits");
        if reduced.pruned.is_none() {
            let (again, again_least) = self::theirs(&Acceptor::from(&reduced.graph));
            assert!(same(&again, &theirs).is_some(), "{name}: the word graph");
            assert_eq!(again_least + reduced.taken_off, least, "{name}: the word graph");
            self.graphs += 1;
        }
        self.lattices += 1;
        self.states += pairs.len();
        self.strings += strings(&ours);
    }
}

#[test]
fn the_same_acceptor_as_openfst() {
    if piped(TOOLS, "0 1 1 2\n1\n").is_none() {
        // not by a macro, whose output cargo keeps of tests that pass
        writeln!(std::io::stderr(), "skipped: OpenFst's tools are not installed").expect("standard error");
        return;
    }
    let grammar = NamedGrammar::parse(&text("grammar.txt")).expect("a grammar");
    let mut reader = UtteranceReader::new(&grammar);
    (reader.scale, reader.drop_unknown) = (Some(1.0), true);
    let mut compared = Compared::default();
    let office = (0..OFFICE).map(|number| format!("office/u{number}.slf"));
    for name in office.chain((0..GENERAL).map(|number| format!("general/u{number}.slf"))) {
        let recognised = reader.recognised_alone(&text(&name)).expect("a lattice");
        // of the whole vocabulary's some have no path with the office's words alone
        if !recognised.acceptor.is_empty() {
            compared.take(&name, &recognised.acceptor);
        }
    }
    println!("{compared:?}");
    assert!(compared.lattices >= OFFICE && compared.graphs >= 45, "{compared:?}");
}

/// The comparison itself: what differs in a weight, an end or a word is found.
#[test]
fn what_differs_is_found() {
    let one = parsed("0 1 1 2\n0 2 2 5\n1 2 3 1\n2\n1 4\n");
    assert!(same(&one, &one).is_some_and(|pairs| pairs.len() == 3) && strings(&one) == 3);
    for other in [
        "0 1 1 2\n0 2 2 5\n1 2 3 2\n2\n1 4\n",
        "0 1 1 2\n0 2 2 5\n1 2 3 1\n2\n1 5\n",
        "0 1 1 2\n0 2 4 5\n1 2 3 1\n2\n1 4\n",
        "0 1 1 2\n0 1 2 5\n1 2 3 1\n2\n1 4\n",
    ] {
        assert_eq!(same(&one, &parsed(other)), None, "{other}");
    }
}
