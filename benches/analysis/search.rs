//! The analysis of a graph by a plain search, written by hand: a channel's length is changed by the
//! firing's rate, each actor's phase is kept, and the actors that may be able to fire are the bits
//! of one number. It has no proofs, reads no file and tests no limit.
//!
//!     search graph NAME       writes the graph file
//!     search capacity NAME    prints what `csdf capacity` prints for it
//!     search schedule NAME    prints what `csdf schedule` prints for it
//!
//! NAME is `chain`, `loops` or `even`, or `random` with a number behind it: graphs of 20 to 64 actors, up to
//! 128 channels, circles and ways beside each other, by the dice of that number.

use std::fmt::Write;

struct Channel {
    from: usize,
    to: usize,
    produce: Vec<u32>,
    consume: Vec<u32>,
    initial: u32,
}

/// A channel as one of its ends sees it.
struct Port {
    channel: usize,
    /// Whether the actor is at both ends.
    own: bool,
    /// The rates of this end.
    rates: Vec<u32>,
}

struct Actor {
    cycles: u32,
    phases: usize,
    firings: u32,
    inputs: Vec<Port>,
    outputs: Vec<Port>,
    /// The actor itself and those at the other ends of its channels.
    neighbours: u64,
}

struct Graph {
    actors: Vec<Actor>,
    channels: Vec<Channel>,
}

const ACTORS: usize = 64;
const PHASES: usize = 16;

/// The cycles of each actor in a period.
fn cycles(actor: usize) -> u32 {
    match actor {
        0 => 1,
        1 => 32,
        _ => 1024,
    }
}

/// Sixteen rates with this sum, each at most 64, by a fixed rule that looks like chance.
fn rates(sum: u32, seed: &mut u64, even: bool) -> Vec<u32> {
    let mut rates = vec![sum / PHASES as u32; PHASES];
    rates[0] += sum % PHASES as u32;
    if even {
        return rates;
    }
    for _ in 0..64 {
        *seed = seed.wrapping_mul(6364136223846793005).wrapping_add(1442695040888963407);
        let giver = (*seed >> 33) as usize % PHASES;
        let taker = (*seed >> 43) as usize % PHASES;
        if rates[giver] > 0 && rates[taker] < 64 {
            rates[giver] -= 1;
            rates[taker] += 1;
        }
    }
    rates
}

fn channel(from: usize, to: usize, initial: u32, seed: &mut u64, even: bool) -> Channel {
    let most = cycles(from).max(cycles(to));
    let sum = if even { 16 } else { 16 + (from as u32 * 7 + to as u32 * 11) % 16 };
    Channel {
        from,
        to,
        produce: rates(sum * most / cycles(from), seed, even),
        consume: rates(sum * most / cycles(to), seed, even),
        initial,
    }
}

/// 64 actors of 16 phases and 126 channels: a chain with a channel back beside each channel, or
/// with a channel of each actor to itself in place of half of those.
fn graph(name: &str) -> Graph {
    let even = name == "even";
    let mut seed = 1;
    let mut channels = Vec::new();
    for a in 0..ACTORS - 1 {
        channels.push(channel(a, a + 1, 0, &mut seed, even));
        if name == "loops" && a >= 2 && a % 2 == 0 {
            channels.push(channel(a, a, 64, &mut seed, even));
        } else {
            channels.push(channel(a + 1, a, 128, &mut seed, even));
        }
    }
    let actors = (0..ACTORS).map(|a| actor(a, cycles(a), PHASES, &channels)).collect();
    Graph { actors, channels }
}

struct Dice(u64);

impl Dice {
    fn below(&mut self, end: u32) -> u32 {
        self.0 = self.0.wrapping_mul(6364136223846793005).wrapping_add(1442695040888963407);
        ((self.0 >> 33) % u64::from(end)) as u32
    }

    fn among(&mut self, values: &[u32]) -> u32 {
        values[self.below(values.len() as u32) as usize]
    }

    /// So many rates with this sum, none above 64 where that can be.
    fn rates(&mut self, sum: u32, phases: usize) -> Vec<u32> {
        let mut rates = vec![sum / phases as u32; phases];
        rates[0] += sum % phases as u32;
        for _ in 0..2 * phases {
            let giver = self.below(phases as u32) as usize;
            let taker = self.below(phases as u32) as usize;
            if rates[giver] > 0 && rates[taker] < 64 {
                rates[giver] -= 1;
                rates[taker] += 1;
            }
        }
        rates
    }
}

fn divisor(a: u32, b: u32) -> u32 {
    if b == 0 { a } else { divisor(b, a % b) }
}

/// A graph by the dice: each actor behind the first has a channel from one of the four before it, and there
/// are more between any two, of which those that lead back begin with the tokens of a period.
fn random_graph(number: u64) -> Graph {
    let mut dice = Dice(number);
    let count = 20 + dice.below(45) as usize;
    let phases: Vec<usize> = (0..count).map(|_| dice.among(&[1, 1, 2, 3, 4, 8]) as usize).collect();
    let cycles: Vec<u32> = (0..count).map(|_| dice.among(&[1, 2, 4, 8, 16, 32, 64, 128])).collect();
    let mut channels = Vec::new();
    let mut join = |from: usize, to: usize, leads_back: bool, dice: &mut Dice| {
        let tokens = cycles[from] / divisor(cycles[from], cycles[to]) * cycles[to] * (1 + dice.below(2));
        let produce = dice.rates(tokens / cycles[from], phases[from]);
        let consume = dice.rates(tokens / cycles[to], phases[to]);
        let fits = produce.iter().chain(&consume).all(|rate| *rate <= 64);
        if fits && !(leads_back && tokens > 256) && channels.len() < 128 {
            let initial = if leads_back { tokens } else { dice.below(4) };
            channels.push(Channel { from, to, produce, consume, initial });
            return true;
        }
        false
    };
    for to in 1..count {
        // (one of the nearest that fits, or with one cycle for the other's many none does)
        for _ in 0..64 {
            let from = to - 1 - dice.below(4.min(to as u32)) as usize;
            if join(from, to, false, &mut dice) {
                break;
            }
        }
    }
    for _ in 0..dice.below(128) {
        let (one, other) = (dice.below(count as u32) as usize, dice.below(count as u32) as usize);
        if one != other {
            join(one, other, one > other, &mut dice);
        }
    }
    let actors = (0..count).map(|a| actor(a, cycles[a], phases[a], &channels)).collect();
    Graph { actors, channels }
}

fn actor(a: usize, cycles: u32, phases: usize, channels: &[Channel]) -> Actor {
    let port = |channel, rates: &[u32]| Port {
        channel,
        own: channels[channel].from == channels[channel].to,
        rates: rates.to_vec(),
    };
    let mut actor = Actor {
        cycles,
        phases,
        firings: cycles * phases as u32,
        inputs: Vec::new(),
        outputs: Vec::new(),
        neighbours: 1 << a,
    };
    for (number, channel) in channels.iter().enumerate() {
        if channel.to == a {
            actor.inputs.push(port(number, &channel.consume));
            actor.neighbours |= 1 << channel.from;
        }
        if channel.from == a {
            actor.outputs.push(port(number, &channel.produce));
            actor.neighbours |= 1 << channel.to;
        }
    }
    actor
}

fn text(graph: &Graph) -> String {
    let mut text = String::new();
    for (a, actor) in graph.actors.iter().enumerate() {
        let kernel = match (actor.inputs.is_empty(), actor.outputs.is_empty()) {
            (true, _) => "source",
            (_, true) => "sink",
            _ => "copy",
        };
        let phases = actor.phases;
        writeln!(text, "[[actor]]\nname = \"a{a}\"\nkernel = \"{kernel}\"\nphases = {phases}\n").unwrap();
    }
    for (c, channel) in graph.channels.iter().enumerate() {
        let Channel { from, to, produce, consume, initial } = channel;
        let initial = vec![0; *initial as usize];
        writeln!(text, "[[channel]]\nname = \"c{c}\"\nfrom = \"a{from}\"\nto = \"a{to}\"").unwrap();
        writeln!(text, "produce = {produce:?}\nconsume = {consume:?}\ninitial = {initial:?}\n").unwrap();
    }
    text
}

struct Run<'a> {
    graph: &'a Graph,
    bounds: Vec<u32>,
    lengths: Vec<u32>,
    phases: Vec<usize>,
    counts: Vec<u32>,
    firings: u32,
    /// Those that are able to fire are among these.
    waiting: u64,
}

impl<'a> Run<'a> {
    fn new(graph: &'a Graph, bounds: Vec<u32>) -> Run<'a> {
        let actors = graph.actors.len();
        Run {
            graph,
            bounds,
            lengths: graph.channels.iter().map(|c| c.initial).collect(),
            phases: vec![0; actors],
            counts: vec![0; actors],
            firings: 0,
            waiting: u64::MAX >> (64 - actors),
        }
    }

    fn filled(&self, c: usize) -> u32 {
        let channel = &self.graph.channels[c];
        let phase = self.phases[channel.from];
        let own = if channel.to == channel.from { channel.consume[phase] } else { 0 };
        self.lengths[c] - own + channel.produce[phase]
    }

    fn can_fire(&self, a: usize) -> bool {
        let actor = &self.graph.actors[a];
        let phase = self.phases[a];
        self.counts[a] < actor.firings
            && actor.inputs.iter().all(|p| p.rates[phase] <= self.lengths[p.channel])
            && actor.outputs.iter().all(|p| {
                let own = if p.own { self.graph.channels[p.channel].consume[phase] } else { 0 };
                self.lengths[p.channel] - own + p.rates[phase] <= self.bounds[p.channel]
            })
    }

    fn fire(&mut self, a: usize) {
        let actor = &self.graph.actors[a];
        let phase = self.phases[a];
        for p in &actor.inputs {
            self.lengths[p.channel] -= p.rates[phase];
        }
        for p in &actor.outputs {
            self.lengths[p.channel] += p.rates[phase];
        }
        self.phases[a] = if phase + 1 == actor.phases { 0 } else { phase + 1 };
        self.counts[a] += 1;
        self.firings += 1;
        self.waiting |= actor.neighbours;
    }

    /// The first actor that is able to fire.
    fn next(&mut self) -> Option<usize> {
        while self.waiting != 0 {
            let a = self.waiting.trailing_zeros() as usize;
            if self.can_fire(a) {
                return Some(a);
            }
            self.waiting &= self.waiting - 1;
        }
        None
    }

    fn go_on(&mut self) {
        while let Some(a) = self.next() {
            self.fire(a);
        }
    }
}

fn total(graph: &Graph) -> u32 {
    graph.actors.iter().map(|a| a.firings).sum()
}

fn completes(graph: &Graph, bounds: &[u32]) -> bool {
    let mut run = Run::new(graph, bounds.to_vec());
    run.go_on();
    run.firings == total(graph)
}

/// The least capacity of the channel, with these of the others.
fn least(graph: &Graph, bounds: &[u32], c: usize) -> u32 {
    let mut bounds = bounds.to_vec();
    bounds[c] = graph.channels[c].initial.max(1);
    let mut run = Run::new(graph, bounds);
    run.go_on();
    while run.firings < total(graph) {
        run.bounds[c] = run.filled(c);
        run.fire(graph.channels[c].from);
        run.go_on();
    }
    run.bounds[c]
}

/// The capacities: as the program, with one run for the full ones and one for the given ones,
/// which are none here.
fn capacities(graph: &Graph) -> Vec<u32> {
    let full: Vec<u32> = graph
        .channels
        .iter()
        .map(|c| c.initial + graph.actors[c.from].cycles * c.produce.iter().sum::<u32>())
        .collect();
    assert!(full.iter().all(|bound| *bound <= 65535));
    assert!(completes(graph, &full), "deadlock");
    assert!(completes(graph, &full), "too tight");
    let mut bounds = full;
    for c in 0..graph.channels.len() {
        bounds[c] = least(graph, &bounds, c);
    }
    bounds
}

fn schedule(graph: &Graph, bounds: Vec<u32>) -> Vec<usize> {
    let mut run = Run::new(graph, bounds);
    let mut schedule = Vec::with_capacity(total(graph) as usize);
    while let Some(a) = run.next() {
        schedule.push(a);
        run.fire(a);
    }
    schedule
}

fn main() {
    let words: Vec<String> = std::env::args().skip(1).collect();
    let [command, name] = &words[..] else { panic!("search graph|capacity|schedule NAME") };
    let graph = match name.strip_prefix("random") {
        Some(number) => random_graph(number.parse().expect("random and a number")),
        None => graph(name),
    };
    let mut out = String::new();
    match command.as_str() {
        "graph" => out = text(&graph),
        "capacity" => {
            let bounds = capacities(&graph);
            for (c, bound) in bounds.iter().enumerate() {
                writeln!(out, "c{c} {bound}").unwrap();
            }
            writeln!(out, "cells {}", bounds.iter().sum::<u32>()).unwrap();
        }
        "schedule" => {
            for a in schedule(&graph, capacities(&graph)) {
                writeln!(out, "a{a}").unwrap();
            }
        }
        _ => panic!("search graph|capacity|schedule NAME"),
    }
    print!("{out}");
}
