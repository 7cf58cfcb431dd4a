//! A baseline to measure dyckmon against: ordinary Rust with the standard library alone, and nothing proved.
//!
//!     rustc --edition 2021 -O bench/baseline.rs -o baseline
//!     ./baseline judge MODEL TRACE WHICH [K]
//!     ./baseline watch MODEL TRACES WHICH [K]
//!
//! It reads the files of docs/FILES.md and docs/RECORDING.md, `-` not among them, and writes what dyckmon writes, with
//! the statuses 0, 1 and 9. Words that are no command, and files that it can't read, have one line and the status 5,
//! whatever the cause is. It doesn't look at limits, ranges of arguments, the order of a model's lines, the rules of
//! models, and what follows the last line of a trace.

use std::collections::{HashMap, VecDeque};
use std::error::Error;
use std::fs::File;
use std::io::{self, BufRead, BufReader, Write};

// ---- System calls and events

/// What a recorded argument is.
#[derive(Clone, Copy)]
enum Kind {
    Number,
    Bytes,
}

use Kind::{Bytes, Number};

/// The name of each system call, and its recorded arguments.
#[rustfmt::skip]
static SYSTEM_CALLS: [(&str, &[Kind]); 24] = [
    ("read", &[Number, Number]), ("write", &[Number, Bytes]), ("open", &[Bytes, Number, Number]), ("close", &[Number]),
    ("lseek", &[Number, Number, Number]), ("dup", &[Number]), ("dup2", &[Number, Number]), ("unlink", &[Bytes]),
    ("rename", &[Bytes, Bytes]), ("mkdir", &[Bytes, Number]), ("rmdir", &[Bytes]), ("chdir", &[Bytes]),
    ("chmod", &[Bytes, Number]), ("kill", &[Number, Number]), ("getpid", &[]), ("getppid", &[]), ("getuid", &[]),
    ("geteuid", &[]), ("getgid", &[]), ("setuid", &[Number]), ("socket", &[Number, Number, Number]),
    ("listen", &[Number, Number]), ("fork", &[]), ("_exit", &[Number]),
];

const FORK: usize = 22;

/// The place of a system call in the table.
fn find_call(name: &str) -> Option<usize> {
    SYSTEM_CALLS.iter().position(|call| call.0 == name)
}

struct SystemCall {
    call: usize,
    /// The numbers among the arguments. No model asks for bytes, so they aren't kept.
    arguments: Vec<Option<i64>>,
    result: i64,
}

enum Event {
    System(SystemCall),
    Pre(u32),
    Post(u32),
}

impl Event {
    /// The process that the event makes, where it is a fork that made one.
    fn child(&self) -> Option<u32> {
        match self {
            Event::System(made) if made.call == FORK && made.result > 0 => made.result.try_into().ok(),
            _ => None,
        }
    }
}

/// A canonical decimal.
fn integer(word: &str) -> Option<i64> {
    let digits = word.strip_prefix('-').unwrap_or(word);
    let is_canonical = word == "0" || digits.starts_with(|first| matches!(first, '1'..='9'));
    word.parse().ok().filter(|_| is_canonical)
}

fn number(word: &str) -> Option<u32> {
    integer(word)?.try_into().ok()
}

fn argument(kind: Kind, word: &str) -> Option<Option<i64>> {
    let is_digit = |byte| matches!(byte, b'0'..=b'9' | b'a'..=b'f');
    match kind {
        Number => integer(word).map(Some),
        Bytes => (word == "-" || word.len() % 2 == 0 && word.bytes().all(is_digit)).then_some(None),
    }
}

/// The event of a line.
fn event(line: &str) -> Option<Event> {
    let mut words = line.split(' ');
    let event = match words.next()? {
        "S" => {
            let call = find_call(words.next()?)?;
            let kinds = SYSTEM_CALLS[call].1.iter();
            let arguments = kinds.map(|&kind| argument(kind, words.next()?)).collect::<Option<_>>()?;
            let result = words.next().filter(|&word| word == "=").and(words.next())?;
            Event::System(SystemCall { call, arguments, result: integer(result)? })
        }
        "B" => Event::Pre(number(words.next()?)?),
        "E" => Event::Post(number(words.next()?)?),
        _ => return None,
    };
    words.next().is_none().then_some(event)
}

// ---- Models

/// Items by a number from 0: those of one number stand side by side.
struct Groups<T> {
    starts: Vec<usize>,
    items: Vec<T>,
}

impl<T> Groups<T> {
    fn new(numbers: usize, mut pairs: Vec<(u32, T)>) -> Groups<T> {
        pairs.sort_by_key(|pair| pair.0);
        let mut starts = vec![0; numbers + 1];
        pairs.iter().for_each(|pair| starts[pair.0 as usize + 1] += 1);
        (0..numbers).for_each(|number| starts[number + 1] += starts[number]);
        Groups { starts, items: pairs.into_iter().map(|pair| pair.1).collect() }
    }

    fn of(&self, number: u32) -> &[T] {
        &self.items[self.starts[number as usize]..self.starts[number as usize + 1]]
    }
}

#[derive(Clone, Copy)]
struct Function {
    entry: u32,
    exit: u32,
}

struct SystemEdge {
    call: usize,
    to: u32,
    /// What each argument has to be, where it has to be something.
    pattern: Vec<Option<i64>>,
}

impl SystemEdge {
    fn reads(&self, made: &SystemCall) -> bool {
        let fits = |(wanted, argument): (&Option<i64>, &Option<i64>)| wanted.is_none() || wanted == argument;
        self.call == made.call && self.pattern.iter().zip(&made.arguments).all(fits)
    }
}

struct CallEdge {
    from: u32,
    site: u32,
    to: u32,
    candidates: Vec<usize>,
}

struct Model {
    nodes: usize,
    functions: Vec<Function>,
    start: Function,
    /// Where silent edges lead from a node.
    silent: Groups<u32>,
    system: Groups<SystemEdge>,
    /// By their sites.
    calls: Vec<CallEdge>,
    /// The places in `calls` of those that leave a node.
    calls_from: Groups<usize>,
    /// Where silent edges, calls and returns lead from a node in the callgraph model.
    quiet: Groups<u32>,
}

impl Model {
    fn read(text: &str) -> Option<Model> {
        let mut lines = text.strip_suffix('\n')?.split('\n');
        lines.next().filter(|line| matches!(*line, "dyckmon-model 1" | "dyckmon-model 2"))?;
        let (mut nodes, mut functions, mut start) = (0, Vec::new(), None);
        let (mut silent, mut system, mut calls) = (Vec::new(), Vec::new(), Vec::new());
        loop {
            let node = |word| number(word).filter(|&node| node < nodes);
            match lines.next()?.split(' ').collect::<Vec<_>>()[..] {
                ["functions", _count] => {}
                ["f", _, entry, exit] => functions.push(Function { entry: number(entry)?, exit: number(exit)? }),
                ["nodes", count] => nodes = number(count)?,
                ["e", from, to] => silent.push((node(from)?, node(to)?)),
                ["s", from, name, to, ref entries @ ..] => {
                    let entry = |word: &&str| if *word == "*" { Some(None) } else { integer(word).map(Some) };
                    let pattern = entries.iter().map(entry).collect::<Option<_>>()?;
                    system.push((node(from)?, SystemEdge { call: find_call(name)?, to: node(to)?, pattern }));
                }
                ["c", from, site, to, ref those @ ..] => {
                    let candidate = |word: &&str| word.parse().ok().filter(|&f| f < functions.len());
                    let candidates = those.iter().map(candidate).collect::<Option<_>>()?;
                    calls.push(CallEdge { from: node(from)?, site: number(site)?, to: node(to)?, candidates });
                }
                ["start", function] => start = functions.get(number(function)? as usize).copied(),
                ["end"] => break,
                _ => return None,
            }
        }
        functions.iter().all(|f| f.entry < nodes && f.exit < nodes).then_some(())?;
        let mut quiet = silent.clone();
        for call in &calls {
            for f in call.candidates.iter().map(|&f| functions[f]) {
                quiet.extend([(call.from, f.entry), (f.exit, call.to)]);
            }
        }
        let nodes = nodes as usize;
        let calls_from = calls.iter().enumerate().map(|(place, call)| (call.from, place)).collect();
        Some(Model {
            nodes,
            functions,
            start: start?,
            silent: Groups::new(nodes, silent),
            system: Groups::new(nodes, system),
            calls,
            calls_from: Groups::new(nodes, calls_from),
            quiet: Groups::new(nodes, quiet),
        })
    }

    fn call_at(&self, site: u32) -> Option<&CallEdge> {
        let place = self.calls.binary_search_by_key(&site, |call| call.site).ok()?;
        Some(&self.calls[place])
    }
}

// ---- Monitors

/// Why a monitor refuses an event.
#[derive(Clone, Copy)]
enum Refused {
    Rejected,
    Bound,
}

/// What the monitors of a model use while they take an event.
struct Space {
    nodes: NodeSet,
    reached: Reached,
}

/// Different nodes, in the order in which they were added.
struct NodeSet {
    list: Vec<u32>,
    has: Vec<bool>,
}

impl NodeSet {
    fn clear(&mut self) {
        for node in self.list.drain(..) {
            self.has[node as usize] = false;
        }
    }

    fn add(&mut self, node: u32) {
        if !self.has[node as usize] {
            self.has[node as usize] = true;
            self.list.push(node);
        }
    }

    /// Adds where the system call leads from these nodes.
    fn read(&mut self, model: &Model, nodes: &[u32], made: &SystemCall) {
        for &node in nodes {
            for edge in model.system.of(node).iter().filter(|edge| edge.reads(made)) {
                self.add(edge.to);
            }
        }
    }

    /// Adds where the edges lead from the nodes of the set.
    fn close(&mut self, edges: &Groups<u32>) {
        let mut next = 0;
        while let Some(&node) = self.list.get(next) {
            edges.of(node).iter().for_each(|&to| self.add(to));
            next += 1;
        }
    }

    /// Where the edges lead from the entry of the start function.
    fn first(&mut self, model: &Model, edges: &Groups<u32>) -> Vec<u32> {
        self.clear();
        self.add(model.start.entry);
        self.close(edges);
        self.list.clone()
    }
}

/// The nodes at which a walk may be.
#[derive(Clone)]
struct Callgraph {
    nodes: Vec<u32>,
}

impl Callgraph {
    fn feed(&mut self, model: &Model, space: &mut NodeSet, event: &Event) -> Result<(), Refused> {
        let Event::System(made) = event else { return Ok(()) };
        space.clear();
        space.read(model, &self.nodes, made);
        if space.list.is_empty() {
            return Err(Refused::Rejected);
        }
        space.close(&model.quiet);
        self.nodes.clone_from(&space.list);
        Ok(())
    }
}

/// The nodes at which a run may be, and the sites of the open calls, which the null calls tell.
#[derive(Clone)]
struct Dyck {
    nodes: Vec<u32>,
    sites: Vec<u32>,
    bound: usize,
}

impl Dyck {
    fn feed(&mut self, model: &Model, space: &mut NodeSet, event: &Event) -> Result<(), Refused> {
        space.clear();
        match event {
            Event::System(made) => space.read(model, &self.nodes, made),
            Event::Pre(site) => self.enter(model, space, *site),
            Event::Post(site) => self.leave(model, space, *site),
        }
        if space.list.is_empty() {
            return Err(Refused::Rejected);
        }
        match event {
            Event::System(_) => {}
            Event::Pre(_) if self.sites.len() == self.bound => return Err(Refused::Bound),
            Event::Pre(site) => self.sites.push(*site),
            Event::Post(_) => drop(self.sites.pop()),
        }
        space.close(&model.silent);
        self.nodes.clone_from(&space.list);
        Ok(())
    }

    fn enter(&self, model: &Model, space: &mut NodeSet, site: u32) {
        if let Some(call) = model.call_at(site).filter(|call| self.nodes.contains(&call.from)) {
            call.candidates.iter().for_each(|&f| space.add(model.functions[f].entry));
        }
    }

    fn leave(&self, model: &Model, space: &mut NodeSet, site: u32) {
        if let Some(call) = model.call_at(site).filter(|_| self.sites.last() == Some(&site)) {
            // Candidates stand in order, and so do their exits.
            let is_exit = |node| call.candidates.binary_search_by_key(node, |&f| model.functions[f].exit).is_ok();
            if self.nodes.iter().any(is_exit) {
                space.add(call.to);
            }
        }
    }
}

/// An open call: the node to which it returns, and the frame of the function that made it.
#[derive(Clone, Copy, PartialEq, Eq, PartialOrd, Ord, Hash)]
struct Link {
    to: u32,
    below: usize,
}

/// A function that was entered, known by its exit, with the calls that may have entered it; the start of the program
/// has none. Stacks share the frames below them, so a few frames stand for many stacks, and for infinitely many where
/// links go in circles.
#[derive(Clone, PartialEq, Eq, Hash)]
struct Frame {
    exit: u32,
    links: Vec<Link>,
}

impl Frame {
    /// The same, where those below it have other places; None where one of them has none.
    fn moved(&self, places: &[Option<usize>]) -> Option<Frame> {
        let links = self.links.iter().map(|link| Some(Link { to: link.to, below: places[link.below]? }));
        let mut links = links.collect::<Option<Vec<_>>>()?;
        links.sort_unstable();
        links.dedup();
        Some(Frame { exit: self.exit, links })
    }
}

/// Frames with nodes to which an event leads.
struct Reached {
    list: Vec<(usize, u32)>,
    /// The frames at each node.
    at: Vec<Vec<usize>>,
    /// Frames from this place on are made by the event.
    old: usize,
}

impl Reached {
    fn clear(&mut self, old: usize) {
        for (_, node) in self.list.drain(..) {
            self.at[node as usize].clear();
        }
        self.old = old;
    }

    fn add(&mut self, frame: usize, node: u32) {
        if !self.at[node as usize].contains(&frame) {
            self.at[node as usize].push(frame);
            self.list.push((frame, node));
        }
    }

    /// Makes a call of the function. The event makes one frame for it, whose exit may have been reached before.
    fn enter(&mut self, frames: &mut Vec<Frame>, function: Function, link: Link) {
        let made = self.at[function.entry as usize].iter().find(|&&frame| frame >= self.old);
        let frame = made.copied().unwrap_or(frames.len());
        if frame == frames.len() {
            frames.push(Frame { exit: function.exit, links: Vec::new() });
            self.add(frame, function.entry);
        }
        frames[frame].links.push(link);
        if self.at[function.exit as usize].contains(&frame) {
            self.add(link.below, link.to);
        }
    }

    /// Adds where steps lead that read nothing. A frame gets no links after the event that makes it.
    fn close(&mut self, model: &Model, frames: &mut Vec<Frame>) {
        let mut next = 0;
        while let Some(&(frame, node)) = self.list.get(next) {
            model.silent.of(node).iter().for_each(|&to| self.add(frame, to));
            for call in model.calls_from.of(node).iter().map(|&place| &model.calls[place]) {
                for &function in &call.candidates {
                    self.enter(frames, model.functions[function], Link { to: call.to, below: frame });
                }
            }
            if node == frames[frame].exit {
                frames[frame].links.iter().for_each(|link| self.add(link.below, link.to));
            }
            next += 1;
        }
    }
}

/// The configurations of the pushdown automaton, as far as a system call leaves them: frames with nodes.
#[derive(Clone)]
struct Stack {
    tops: Vec<(usize, u32)>,
    frames: Vec<Frame>,
    /// With so many frames they are tidied.
    full: usize,
}

impl Stack {
    fn new(model: &Model, space: &mut Reached) -> Stack {
        let root = Frame { exit: model.start.exit, links: Vec::new() };
        let mut stack = Stack { tops: Vec::new(), frames: vec![root], full: 256 };
        space.clear(1);
        space.add(0, model.start.entry);
        stack.settle(model, space);
        stack
    }

    fn feed(&mut self, model: &Model, space: &mut Reached, event: &Event) -> Result<(), Refused> {
        let Event::System(made) = event else { return Ok(()) };
        space.clear(self.frames.len());
        for &(frame, node) in &self.tops {
            for edge in model.system.of(node).iter().filter(|edge| edge.reads(made)) {
                space.add(frame, edge.to);
            }
        }
        if space.list.is_empty() {
            return Err(Refused::Rejected);
        }
        self.settle(model, space);
        Ok(())
    }

    fn settle(&mut self, model: &Model, space: &mut Reached) {
        space.close(model, &mut self.frames);
        self.tops.clear();
        self.tops.extend(space.list.iter().filter(|top| !model.system.of(top.1).is_empty()));
        if self.frames.len() >= self.full {
            self.tidy();
        }
    }

    /// Keeps the frames that the tops need, and of equal ones one. Each comes after those below it, whose new places
    /// are known then; where links go in circles one has to come before, and is equal to no other.
    fn tidy(&mut self) {
        let mut kept = Vec::new();
        let mut equal = HashMap::new();
        let mut places = vec![None; self.frames.len()];
        let mut is_seen = vec![false; self.frames.len()];
        let mut next: Vec<usize> = self.tops.iter().map(|top| top.0).collect();
        while let Some(&frame) = next.last() {
            if !std::mem::replace(&mut is_seen[frame], true) {
                next.extend(self.frames[frame].links.iter().map(|link| link.below).filter(|&below| !is_seen[below]));
                continue;
            }
            next.pop();
            if places[frame].is_none() {
                let moved = self.frames[frame].moved(&places);
                let place = moved.map_or(kept.len(), |moved| *equal.entry(moved).or_insert(kept.len()));
                if place == kept.len() {
                    kept.push(frame);
                }
                places[frame] = Some(place);
            }
        }
        let moved = |&frame: &usize| self.frames[frame].moved(&places).expect("those below it have places");
        self.frames = kept.iter().map(moved).collect();
        self.tops = self.tops.iter().filter_map(|&(frame, node)| Some((places[frame]?, node))).collect();
        self.tops.sort_unstable();
        self.tops.dedup();
        self.full = 2 * self.frames.len() + 256;
    }
}

#[derive(Clone)]
enum Monitor {
    Callgraph(Callgraph),
    Stack(Stack),
    Dyck(Dyck),
}

impl Monitor {
    fn feed(&mut self, model: &Model, space: &mut Space, event: &Event) -> Result<(), Refused> {
        match self {
            Monitor::Callgraph(monitor) => monitor.feed(model, &mut space.nodes, event),
            Monitor::Stack(monitor) => monitor.feed(model, &mut space.reached, event),
            Monitor::Dyck(monitor) => monitor.feed(model, &mut space.nodes, event),
        }
    }

    fn name(&self) -> &'static str {
        match self {
            Monitor::Callgraph(_) => "callgraph",
            Monitor::Stack(_) => "stack",
            Monitor::Dyck(_) => "dyck",
        }
    }
}

// ---- Processes

#[derive(Clone)]
struct Process {
    /// Each with why it refused the process, if it did, and the lines that say so.
    monitors: Vec<(Monitor, Option<(Refused, String)>)>,
    events: usize,
    /// The last events, at most eight, where they may have to be told.
    window: VecDeque<String>,
    /// A fork makes a child known before it has a record.
    has_record: bool,
}

impl Process {
    fn feed(&mut self, model: &Model, space: &mut Space, event: &Event, line: &str) {
        self.events += 1;
        for (monitor, refusal) in self.monitors.iter_mut().filter(|(_, refusal)| refusal.is_none()) {
            if let Err(why) = monitor.feed(model, space, event) {
                let window = (self.events - self.window.len()..).zip(&self.window);
                let window: String = window.map(|(number, line)| format!("- {number} {line}\n")).collect();
                let said = match why {
                    Refused::Rejected => format!("rejected {} {line}\n{window}", self.events),
                    Refused::Bound => format!("bound {} {line}\n", self.events),
                };
                *refusal = Some((why, said));
            }
        }
    }
}

/// The lines of verdicts, and how many of each kind there are.
#[derive(Default)]
struct Report {
    text: String,
    accepted: usize,
    rejected: usize,
    bound: usize,
}

impl Report {
    /// Tells the verdicts on a process, each behind these words.
    fn tell(&mut self, whose: &str, process: &Process) {
        for (monitor, refusal) in &process.monitors {
            let (count, said) = match refusal {
                None => (&mut self.accepted, format!("accepted {}\n", process.events)),
                Some((Refused::Rejected, said)) => (&mut self.rejected, said.clone()),
                Some((Refused::Bound, said)) => (&mut self.bound, said.clone()),
            };
            *count += 1;
            self.text += &format!("{whose}{} {said}", monitor.name());
        }
    }

    fn status(&self) -> i32 {
        match (self.rejected, self.bound) {
            (0, 0) => 0,
            (0, _) => 9,
            _ => 1,
        }
    }
}

// ---- Commands

type Outcome<T> = Result<T, Box<dyn Error>>;

/// Reads the next line, without its line feed.
fn read_line(input: &mut impl BufRead, line: &mut String) -> Outcome<()> {
    line.clear();
    input.read_line(line)?;
    line.pop().filter(|&last| last == '\n').map(|_| ()).ok_or("the trace has no end".into())
}

fn judge(model: &Model, space: &mut Space, mut process: Process, input: &mut impl BufRead) -> Outcome<Report> {
    let mut line = String::new();
    read_line(input, &mut line)?;
    (line == "dyckmon-trace 1").then_some(()).ok_or("this is no trace")?;
    read_line(input, &mut line)?;
    while !line.starts_with("end ") {
        process.feed(model, space, &event(&line).ok_or("a line of the trace is bad")?, &line);
        read_line(input, &mut line)?;
    }
    let mut report = Report::default();
    report.tell("", &process);
    Ok(report)
}

fn watch(model: &Model, space: &mut Space, begin: Process, input: &mut impl BufRead) -> Outcome<Report> {
    let mut line = String::new();
    read_line(input, &mut line)?;
    let version = line.strip_prefix("dyckmon-traces ").filter(|version| matches!(*version, "1" | "2"));
    let has_forks = version.ok_or("these are no traces")? == "2";
    let mut processes: HashMap<u32, Process> = HashMap::new();
    // Those with a record, in the order of their first ones.
    let mut firsts = Vec::new();
    read_line(input, &mut line)?;
    while line != "end" {
        let record = line.split_once(' ').and_then(|(pid, text)| Some((number(pid)?, text, event(text)?)));
        let (pid, text, event) = record.ok_or("a line of the traces is bad")?;
        let process = processes.entry(pid).or_insert_with(|| begin.clone());
        if !std::mem::replace(&mut process.has_record, true) {
            firsts.push(pid);
        }
        process.feed(model, space, &event, text);
        if process.window.len() == 8 {
            process.window.pop_front();
        }
        process.window.push_back(text.to_string());
        if let Some(child) = event.child().filter(|_| has_forks) {
            let born = Process { has_record: false, ..process.clone() };
            processes.entry(child).or_insert(born);
        }
        read_line(input, &mut line)?;
    }
    let mut report = Report::default();
    firsts.iter().for_each(|pid| report.tell(&format!("{pid} "), &processes[pid]));
    let Report { accepted, rejected, bound, .. } = report;
    let sum = accepted + rejected + bound;
    report.text += &format!("verdicts {sum} accepted {accepted} rejected {rejected} bound {bound}\n");
    Ok(report)
}

fn run(words: &[&str]) -> Outcome<Report> {
    let bound = words.get(4).unwrap_or(&"1000").parse()?;
    let [command @ ("judge" | "watch"), model, trace, which @ ("callgraph" | "stack" | "dyck" | "all"), ..] = *words
    else {
        return Err("usage: baseline judge|watch MODEL TRACE callgraph|stack|dyck|all [K]".into());
    };
    let model = &Model::read(&std::fs::read_to_string(model)?).ok_or("the model is bad")?;
    let mut nodes = NodeSet { list: Vec::new(), has: vec![false; model.nodes] };
    let mut reached = Reached { list: Vec::new(), at: vec![Vec::new(); model.nodes], old: 0 };
    let mut monitors = Vec::new();
    if matches!(which, "callgraph" | "all") {
        monitors.push(Monitor::Callgraph(Callgraph { nodes: nodes.first(model, &model.quiet) }));
    }
    if matches!(which, "stack" | "all") {
        monitors.push(Monitor::Stack(Stack::new(model, &mut reached)));
    }
    if matches!(which, "dyck" | "all") {
        monitors.push(Monitor::Dyck(Dyck { nodes: nodes.first(model, &model.silent), sites: Vec::new(), bound }));
    }
    let monitors = monitors.into_iter().map(|monitor| (monitor, None)).collect();
    let process = Process { monitors, events: 0, window: VecDeque::new(), has_record: false };
    let (space, input) = (&mut Space { nodes, reached }, &mut BufReader::new(File::open(trace)?));
    match command {
        "judge" => judge(model, space, process, input),
        _ => watch(model, space, process, input),
    }
}

fn main() {
    let words: Vec<String> = std::env::args().skip(1).collect();
    let words: Vec<&str> = words.iter().map(String::as_str).collect();
    let written = run(&words).and_then(|report| {
        io::stdout().write_all(report.text.as_bytes())?;
        Ok(report.status())
    });
    std::process::exit(written.unwrap_or_else(|error| {
        eprintln!("{error}");
        5
    }))
}
