//! Runs of the graphs of this folder by a plain program, written by hand: queues, and a lock where it has
//! more than one worker. It keeps no journal, has no proofs and tests no limit.
//!
//!     hand graph NAME                 prints the graph file
//!     hand periods NAME               prints the number of periods
//!     hand feeds NAME DIR             writes the token file of each source into DIR
//!     hand run NAME DIR WORKERS       runs these periods: reads DIR/NAME.in, writes DIR/NAME.out
//!
//! `run` beside this file says what each graph is.

use std::collections::VecDeque;
use std::fmt::Write;
use std::path::Path;
use std::sync::{Condvar, Mutex};
use std::{fs, thread};

enum Kernel {
    Source,
    Sink,
    Copy,
    Fir { weights: Vec<i32>, shift: u32 },
}

struct Actor {
    name: String,
    kernel: Kernel,
    /// Its firings in a period.
    firings: u32,
    inputs: Vec<usize>,
    outputs: Vec<usize>,
}

struct Channel {
    name: String,
    from: usize,
    to: usize,
    produce: usize,
    consume: usize,
    initial: usize,
    capacity: usize,
}

#[derive(Default)]
struct Graph {
    periods: u32,
    actors: Vec<Actor>,
    channels: Vec<Channel>,
}

impl Graph {
    fn of(periods: u32) -> Graph {
        Graph { periods, ..Graph::default() }
    }

    fn actor(&mut self, name: String, kernel: Kernel, firings: u32) -> usize {
        self.actors.push(Actor { name, kernel, firings, inputs: Vec::new(), outputs: Vec::new() });
        self.actors.len() - 1
    }

    /// A channel with no initial tokens, or with those that one firing takes.
    fn channel(&mut self, from: usize, to: usize, produce: usize, consume: usize, initial: usize, capacity: usize) {
        let name = format!("c{}", self.channels.len());
        self.actors[from].outputs.push(self.channels.len());
        self.actors[to].inputs.push(self.channels.len());
        self.channels.push(Channel { name, from, to, produce, consume, initial, capacity });
    }
}

fn fir(taps: usize, shift: u32) -> Kernel {
    let weights = (0..taps).map(|tap| 1 + (tap as i32 * 7) % 5).collect();
    Kernel::Fir { weights, shift }
}

/// From 44.1 kHz to 48 kHz: 612 light firings in a period.
fn rates() -> Graph {
    let mut graph = Graph::of(1000);
    let cd = graph.actor("cd".into(), Kernel::Source, 147);
    let stages = [(147, 3), (98, 4), (28, 7), (32, 5)];
    let mut last = cd;
    for (at, (firings, taps)) in stages.into_iter().enumerate() {
        let stage = graph.actor(format!("stage{at}"), fir(taps, 3), firings);
        let (produce, consume) = [(1, 1), (2, 3), (2, 7), (8, 7)][at];
        graph.channel(last, stage, produce, consume, 0, [1, 4, 8, 14][at]);
        last = stage;
    }
    let dat = graph.actor("dat".into(), Kernel::Sink, 160);
    graph.channel(last, dat, 5, 1, 0, 5);
    graph
}

/// Filters of 16 taps over 64 tokens that they hand to themselves, side by side.
fn filters(count: usize) -> Graph {
    let mut graph = Graph::of(1000);
    let filters: Vec<usize> = (0..count)
        .map(|at| {
            let source = graph.actor(format!("source{at}"), Kernel::Source, 128);
            let filter = graph.actor(format!("filter{at}"), fir(16, 5), 128);
            graph.channel(source, filter, 1, 1, 0, 1);
            graph.channel(filter, filter, 64, 64, 64, 64);
            filter
        })
        .collect();
    let sink = graph.actor("sink".into(), Kernel::Sink, 2);
    for filter in filters {
        graph.channel(filter, sink, 1, 64, 0, 64);
    }
    graph
}

/// A source of 512 tokens a firing, eight rows of seven filters of 16 taps over 64 tokens, and a sink.
fn cascade() -> Graph {
    let mut graph = Graph::of(1000);
    let source = graph.actor("source".into(), Kernel::Source, 1);
    let filters: Vec<usize> = (0..56)
        .map(|at| {
            let weights = (0..16).map(|tap| (tap * 37 + at) % 200 - 100).collect();
            graph.actor(format!("filter{at}"), Kernel::Fir { weights, shift: 7 }, 1)
        })
        .collect();
    let sink = graph.actor("sink".into(), Kernel::Sink, 1);
    for row in filters.chunks(7) {
        let mut last = source;
        for &next in row.iter().chain([&sink]) {
            graph.channel(last, next, 64, 64, 0, 64);
            last = next;
        }
    }
    graph
}

/// 64 actors in a row: a source of 1,000 tokens a period, 62 copies of which the last takes 50 tokens and
/// gives one, and a sink of 20.
fn chain(periods: u32) -> Graph {
    let mut graph = Graph::of(periods);
    for at in 0..64 {
        let (kernel, firings) = match at {
            0 => (Kernel::Source, 1000),
            62 => (Kernel::Copy, 20),
            63 => (Kernel::Sink, 1),
            _ => (Kernel::Copy, 1000),
        };
        graph.actor(format!("a{at}"), kernel, firings);
    }
    for at in 0..63 {
        let consume = [1, 50, 20][usize::from(at > 60) + usize::from(at > 61)];
        graph.channel(at, at + 1, 1, consume, 0, consume);
    }
    graph
}

fn graph_of(name: &str) -> Graph {
    match name {
        "rates" => rates(),
        "filter" => filters(1),
        "filters" => filters(8),
        "cascade" => cascade(),
        "chain" => chain(100),
        "chain_long" => chain(1000),
        _ => panic!("no graph {name}"),
    }
}

fn graph_file(graph: &Graph) -> String {
    let mut text = String::new();
    for actor in &graph.actors {
        writeln!(text, "[[actor]]\nname = \"{}\"", actor.name).unwrap();
        match &actor.kernel {
            Kernel::Source => writeln!(text, "kernel = \"source\"").unwrap(),
            // (two phases, so that a period has two firings of the sink)
            Kernel::Sink if actor.firings == 2 => writeln!(text, "kernel = \"sink\"\nphases = 2").unwrap(),
            Kernel::Sink => writeln!(text, "kernel = \"sink\"").unwrap(),
            Kernel::Copy => writeln!(text, "kernel = \"copy\"").unwrap(),
            Kernel::Fir { weights, shift } => {
                writeln!(text, "kernel = \"fir\"\nweights = {weights:?}\nshift = {shift}").unwrap();
            }
        }
    }
    for channel in &graph.channels {
        let phases = |actor: usize| if graph.actors[actor].firings == 2 { 2 } else { 1 };
        let produce = vec![channel.produce; phases(channel.from)];
        let consume = vec![channel.consume; phases(channel.to)];
        let (from, to) = (&graph.actors[channel.from].name, &graph.actors[channel.to].name);
        writeln!(text, "[[channel]]\nname = \"{}\"\nfrom = \"{from}\"\nto = \"{to}\"", channel.name).unwrap();
        writeln!(text, "produce = {produce:?}\nconsume = {consume:?}\ncapacity = {}", channel.capacity).unwrap();
        if channel.initial > 0 {
            writeln!(text, "initial = {:?}", (0..channel.initial).collect::<Vec<_>>()).unwrap();
        }
    }
    text
}

fn write_feeds(graph: &Graph, dir: &Path) {
    for actor in graph.actors.iter().filter(|actor| matches!(actor.kernel, Kernel::Source)) {
        let mut text = String::new();
        let each: usize = actor.outputs.iter().map(|&at| graph.channels[at].produce).sum();
        for number in 0..graph.periods * actor.firings * each as u32 {
            writeln!(text, "{}", (number.wrapping_mul(2654435761) >> 20) as i32 - 2048).unwrap();
        }
        fs::write(dir.join(format!("{}.in", actor.name)), text).unwrap();
    }
}

/// What changes while a graph runs.
struct State {
    queues: Vec<VecDeque<i32>>,
    feeds: Vec<VecDeque<i32>>,
    left: Vec<u32>,
    is_busy: Vec<bool>,
    taken: Vec<Vec<i32>>,
    sleeping: usize,
    running: usize,
}

impl State {
    fn new(graph: &Graph, dir: &Path) -> State {
        let feed = |actor: &Actor| match actor.kernel {
            Kernel::Source => fs::read_to_string(dir.join(format!("{}.in", actor.name)))
                .unwrap()
                .lines()
                .map(|line| line.parse().unwrap())
                .collect(),
            _ => VecDeque::new(),
        };
        State {
            queues: graph.channels.iter().map(|channel| (0..channel.initial as i32).collect()).collect(),
            feeds: graph.actors.iter().map(feed).collect(),
            left: graph.actors.iter().map(|actor| graph.periods * actor.firings).collect(),
            is_busy: vec![false; graph.actors.len()],
            taken: vec![Vec::new(); graph.actors.len()],
            sleeping: 0,
            running: 0,
        }
    }

    fn is_able(&self, graph: &Graph, actor: usize) -> bool {
        let Actor { inputs, outputs, .. } = &graph.actors[actor];
        let has_tokens = |&at: &usize| self.queues[at].len() >= graph.channels[at].consume;
        let has_room = |&at: &usize| {
            let channel = &graph.channels[at];
            let kept = if channel.to == actor { channel.consume } else { 0 };
            self.queues[at].len() - kept + channel.produce <= channel.capacity
        };
        self.left[actor] > 0 && !self.is_busy[actor] && inputs.iter().all(has_tokens) && outputs.iter().all(has_room)
    }

    fn first_able(&self, graph: &Graph) -> Option<usize> {
        (0..graph.actors.len()).find(|&actor| self.is_able(graph, actor))
    }

    fn read(&mut self, graph: &Graph, actor: usize, inputs: &mut Vec<i32>) {
        inputs.clear();
        let Actor { kernel, outputs, .. } = &graph.actors[actor];
        if let Kernel::Source = kernel {
            let count: usize = outputs.iter().map(|&at| graph.channels[at].produce).sum();
            inputs.extend(self.feeds[actor].drain(..count));
        }
        for &at in &graph.actors[actor].inputs {
            inputs.extend(self.queues[at].drain(..graph.channels[at].consume));
        }
        self.left[actor] -= 1;
        if let Kernel::Sink = kernel {
            self.taken[actor].extend_from_slice(inputs);
        }
    }

    fn write(&mut self, graph: &Graph, actor: usize, outputs: &[i32]) {
        let mut rest = outputs;
        for &at in &graph.actors[actor].outputs {
            let (these, others) = rest.split_at(graph.channels[at].produce);
            self.queues[at].extend(these);
            rest = others;
        }
    }
}

fn compute(graph: &Graph, actor: usize, inputs: &[i32], outputs: &mut Vec<i32>) {
    outputs.clear();
    match &graph.actors[actor].kernel {
        Kernel::Source => outputs.extend_from_slice(inputs),
        Kernel::Sink => {}
        Kernel::Copy => {
            for &at in &graph.actors[actor].outputs {
                outputs.extend(inputs.iter().cycle().take(graph.channels[at].produce));
            }
        }
        Kernel::Fir { weights, shift } => {
            for &at in &graph.actors[actor].outputs {
                for place in 0..graph.channels[at].produce {
                    let products = weights.iter().zip(inputs.get(place..).unwrap_or(&[]));
                    let sum: i64 = products.map(|(&weight, &token)| i64::from(weight) * i64::from(token)).sum();
                    outputs.push((sum >> shift).clamp(i32::MIN.into(), i32::MAX.into()) as i32);
                }
            }
        }
    }
}

/// One firing after the other.
fn run_alone(graph: &Graph, state: &mut State) {
    let (mut inputs, mut outputs) = (Vec::new(), Vec::new());
    while let Some(actor) = state.first_able(graph) {
        state.read(graph, actor, &mut inputs);
        compute(graph, actor, &inputs, &mut outputs);
        state.write(graph, actor, &outputs);
    }
}

/// One of several workers: firings are computed without the lock.
fn work(graph: &Graph, shared: &Mutex<State>, changed: &Condvar) {
    let (mut inputs, mut outputs) = (Vec::new(), Vec::new());
    let mut state = shared.lock().unwrap();
    loop {
        let Some(actor) = state.first_able(graph) else {
            if state.running == 0 {
                changed.notify_all();
                return;
            }
            state.sleeping += 1;
            state = changed.wait(state).unwrap();
            state.sleeping -= 1;
            continue;
        };
        state.is_busy[actor] = true;
        state.running += 1;
        state.read(graph, actor, &mut inputs);
        if state.sleeping > 0 && state.first_able(graph).is_some() {
            changed.notify_one();
        }
        drop(state);
        compute(graph, actor, &inputs, &mut outputs);
        state = shared.lock().unwrap();
        state.write(graph, actor, &outputs);
        state.is_busy[actor] = false;
        state.running -= 1;
    }
}

fn run(graph: &Graph, dir: &Path, workers: usize) {
    let mut state = State::new(graph, dir);
    if workers == 1 {
        run_alone(graph, &mut state);
    } else {
        let shared = Mutex::new(state);
        let changed = Condvar::new();
        thread::scope(|scope| {
            for _ in 0..workers {
                scope.spawn(|| work(graph, &shared, &changed));
            }
        });
        state = shared.into_inner().unwrap();
    }
    for (actor, taken) in graph.actors.iter().zip(&state.taken) {
        if let Kernel::Sink = actor.kernel {
            let mut text = String::new();
            for token in taken {
                writeln!(text, "{token}").unwrap();
            }
            fs::write(dir.join(format!("{}.out", actor.name)), text).unwrap();
        }
    }
}

fn main() {
    let words: Vec<String> = std::env::args().skip(1).collect();
    let words: Vec<&str> = words.iter().map(String::as_str).collect();
    match words[..] {
        ["graph", name] => print!("{}", graph_file(&graph_of(name))),
        ["periods", name] => println!("{}", graph_of(name).periods),
        ["feeds", name, dir] => write_feeds(&graph_of(name), Path::new(dir)),
        ["run", name, dir, workers] => run(&graph_of(name), Path::new(dir), workers.parse().unwrap()),
        _ => panic!("hand graph NAME | periods NAME | feeds NAME DIR | run NAME DIR WORKERS"),
    }
}
