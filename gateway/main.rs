//! The gateway. It joins TCP connections and a Unix socket to the pipes of the server's workers (`worker`), and
//! the pipes of the server's devices to a far store (`link`).
//!
//! One thread does this. It waits in `Epoll::wait`, and otherwise only for 10 ms when the system refuses a
//! connection. Other threads only make new connections to the store (`store`).
#![deny(unsafe_code)]

mod before_login;
mod channel;
mod client;
mod common;
mod figures;
mod link;
mod listener;
mod log;
mod memory;
mod news;
mod packet;
mod resident;
mod store;
mod system;
mod turns;
mod words;
mod worker;

use client::BASE;
use common::Shared;
use figures::Figure;
use link::Link;
use listener::{listen_at, Listener};
use log::{Level, Log, Subject, Why};
use packet::PLACE;
use resident::Resident;
use std::fmt::Display;
use std::fs::{self, File};
use std::io::{self, ErrorKind, Write};
use std::net::{SocketAddr, TcpListener};
use std::os::unix::fs::{FileTypeExt, OpenOptionsExt};
use std::process::ExitCode;
use std::time::{Duration, Instant};
use std::{env, thread};
use store::Store;
use system::{Epoll, Event, INPUT};
use words::{Options, USAGE};
use worker::Worker;

const REFUSAL: &[u8] = b"-ERR max number of clients reached\r\n";
/// How long pending replies are waited for at the end.
const END: Duration = Duration::from_secs(1);
/// How often silent clients are looked for, and resident memory is read.
const SWEEP: Duration = Duration::from_secs(1);
/// How often a pipe is looked at if no event will report that it has room.
const LOOK: Duration = Duration::from_millis(1);
/// How long to wait if the server has not opened a pipe yet, or if the system has no room for a connection.
const PAUSE: Duration = Duration::from_millis(10);
/// Files besides the connections, the two of each worker, and those of each link.
const FILES: usize = 16;
/// Files of each link: its two pipes, its connection and its spare.
const LINK_FILES: usize = 4;
const EVENTS: usize = 256;
/// ENXIO: nobody has opened a pipe for reading.
const NO_READER: i32 = 6;
/// Tokens that belong to no worker and no link. Their place is the highest: the signals, and below them the
/// listeners and the store.
const SIGNALS: u64 = u64::MAX;
const LISTENERS: u64 = SIGNALS - 2;
const STORE: u64 = LISTENERS - 1;

fn main() -> ExitCode {
    system::free_at_once();
    let options = match Options::read(env::args_os().skip(1)) {
        Ok(options) => options,
        Err(fault) => {
            eprintln!("gateway: {fault}\n{USAGE}");
            return ExitCode::from(2);
        }
    };
    // The signals are taken first: a thread that is started before would be ended by them.
    let signals = of("signals", system::ends());
    let (signals, log) = match signals.and_then(|it| Ok((it, of("the log", Log::new(options.log_level))?))) {
        Ok(made) => made,
        Err(fault) => {
            eprintln!("gateway: {fault}");
            return ExitCode::FAILURE;
        }
    };
    log.tell(Level::Notice, format_args!("starts: {}", options.about));
    let ended = serve(&options, signals, log.clone());
    match &ended {
        Ok(()) => {}
        // Standard error may be a pipe that nobody reads.
        Err(fault) if log.is_on() => log.tell(Level::Warning, format_args!("ends: {fault}")),
        Err(fault) => eprintln!("gateway: {fault}"),
    }
    log.finish();
    ended.map_or(ExitCode::FAILURE, |()| ExitCode::SUCCESS)
}

fn seconds(count: u32) -> Duration {
    Duration::from_secs(count.into())
}

/// Says in a fault's text what it is about.
fn of<T>(what: impl Display, result: io::Result<T>) -> Result<T, String> {
    result.map_err(|fault| format!("{what}: {fault}"))
}

fn serve(options: &Options, signals: File, log: Log) -> Result<(), String> {
    let epoll = of("events", Epoll::new())?;
    of("signals", epoll.watch(&signals, 0, INPUT, SIGNALS))?;
    let mut gateway = Gateway {
        signals,
        listeners: Vec::new(),
        workers: Vec::new(),
        store: far_store(options)?,
        links: Vec::new(),
        connections: room_for(options, &log)?,
        shared: Shared::new(epoll, log, options),
        next: 0,
        refused: 0,
        resident: 0,
        store_fails: false,
        figures: Figure::all(Instant::now()),
    };
    let mut ready = "ready".to_string();
    if let Some(port) = options.port {
        let address = SocketAddr::new(options.bind, port);
        let listener = of(address, TcpListener::bind(address))?;
        ready += &format!(" {}", of(address, listener.local_addr())?);
        gateway.listeners.push(Listener { file: listener.into(), path: None });
    }
    if let Some(path) = &options.unix {
        let file = of(path.display(), listen_at(path))?.into();
        gateway.listeners.push(Listener { file, path: Some(path.clone()) });
        ready += &format!(" {}", path.display());
    }
    let ended = gateway.run(options, &ready);
    let _ = options.unix.iter().try_for_each(fs::remove_file);
    ended
}

fn far_store(options: &Options) -> Result<Option<Store>, String> {
    let Some(address) = &options.far_resp else { return Ok(None) };
    let path = options.far_password_file.as_ref();
    let password = path.map(|it| of(format_args!("--far-password-file {}", it.display()), store::password(it)));
    let store = Store::new(address, password.transpose()?, seconds(options.far_timeout), options.far_links.len());
    of(format_args!("far store {}", address.to_string_lossy()), store).map(Some)
}

/// How many connections there may be, because each is a file and takes memory. Standard error gets a line if
/// the limit of open files makes them fewer.
fn room_for(options: &Options, log: &Log) -> Result<usize, String> {
    let files = of("files", system::raise_files())?;
    let room = files.saturating_sub(FILES + 2 * options.workers.len() + LINK_FILES * options.far_links.len());
    if room < options.connections {
        let text = format!("{room} connections at most, since {files} files may be open");
        match log.is_on() {
            true => log.tell(Level::Warning, format_args!("{text}")),
            false => eprintln!("gateway: {text}"),
        }
    }
    Ok(room.min(options.connections).min(options.clients_memory / 2 / BASE))
}

/// All that the main thread works with.
struct Gateway {
    signals: File,
    listeners: Vec<Listener>,
    workers: Vec<Worker>,
    store: Option<Store>,
    /// Their tokens follow those of the workers.
    links: Vec<Link>,
    shared: Shared,
    connections: usize,
    /// Which worker gets the next connection.
    next: usize,
    /// How many clients were refused since the start.
    refused: u64,
    /// Resident bytes of both programs.
    resident: u64,
    /// The store could not be reached when it was last tried.
    store_fails: bool,
    figures: [Figure; 4],
}

impl Gateway {
    /// Reaches the store, opens the pipes, reports that it is ready, and serves until a signal arrives.
    fn run(&mut self, options: &Options, ready: &str) -> Result<(), String> {
        let Some(spares) = self.reach_store(options)? else { return Ok(()) };
        if !self.open_pipes(options, spares)? {
            return Ok(());
        }
        for (place, listener) in self.listeners.iter().enumerate() {
            of("listening", system::widen(&listener.file))?;
            of("listening", self.shared.epoll.watch(&listener.file, 0, INPUT, LISTENERS + place as u64))?;
        }
        if let Some(store) = &self.store {
            of("events", self.shared.epoll.watch(&store.wake, 0, INPUT, STORE))?;
        }
        // If nobody reads this line, clients may be served all the same.
        let _ = writeln!(io::stdout(), "{ready}").and_then(|()| io::stdout().flush());
        let (workers, most) = (self.workers.len(), self.connections);
        let text = format_args!("{ready}: {workers} threads, {most} connections at most");
        self.shared.log.tell(Level::Notice, text);
        let (idle, resident) = (seconds(options.timeout), Resident::new(options.server_pid));
        let mut swept = Instant::now();
        while !self.turn(self.patience())? {
            if self.shared.now - swept >= SWEEP {
                swept = self.shared.now;
                self.resident = resident.bytes();
                self.workers.iter_mut().for_each(|it| it.close_late(idle, &mut self.shared));
                self.ask_news();
                self.shared.log.tick(swept);
                debug_assert!(self.shared.memory.is_sum_of(self.workers.iter().flat_map(Worker::taken)));
            }
        }
        self.shared.log.tell_rest();
        self.shared.log.tell(Level::Notice, format_args!("ends: a signal came"));
        self.stop();
        Ok(())
    }

    /// How long to wait for events.
    fn patience(&self) -> Duration {
        if self.workers.iter().any(Worker::is_blind) {
            LOOK
        } else {
            SWEEP
        }
    }

    /// Makes a first connection to the store for each link. None if a signal arrived first.
    fn reach_store(&self, options: &Options) -> Result<Option<Vec<File>>, String> {
        let Some(store) = &self.store else { return Ok(Some(Vec::new())) };
        of("events", self.shared.epoll.watch(&store.wake, 0, INPUT, STORE))?;
        let mut spares: Vec<Option<File>> = options.far_links.iter().map(|_| None).collect();
        (0..spares.len()).for_each(|link| store.greet(link));
        let end = Instant::now() + store.patience();
        while spares.iter().any(Option::is_none) {
            let left = end.saturating_duration_since(Instant::now());
            let mut events = [Event::default(); 2];
            let count = of("events", self.shared.epoll.wait(&mut events, left))?;
            if events[..count].iter().any(|it| it.token == SIGNALS) {
                return Ok(None);
            }
            if count == 0 && left.is_zero() {
                return Err(store.fault(io::Error::from(ErrorKind::TimedOut).into()));
            }
            for (link, made) in store.greeted() {
                spares[link] = Some(made.map_err(|fault| store.fault(fault))?);
            }
        }
        // Its last byte may still arrive.
        of("events", self.shared.epoll.watch(&store.wake, INPUT, 0, STORE))?;
        Ok(Some(spares.into_iter().flatten().collect()))
    }

    /// Opens the pipes, in whatever order the server opens them. False if a signal arrived first.
    fn open_pipes(&mut self, options: &Options, spares: Vec<File>) -> Result<bool, String> {
        // Pairs of a pipe for input and one for output. A worker's requests are output, a device's are input.
        let workers = options.workers.iter().map(|(requests, replies)| (replies, requests));
        let links = options.far_links.iter().map(|(requests, replies)| (requests, replies));
        let paths: Vec<_> = workers.chain(links).collect();
        for path in paths.iter().flat_map(|(input, output)| [input, output]) {
            if !of(path.display(), fs::metadata(path))?.file_type().is_fifo() {
                return Err(format!("{}: it is no pipe", path.display()));
            }
        }
        let mut pipe = File::options();
        pipe.read(true).custom_flags(system::NONBLOCK);
        let inputs: Result<Vec<_>, _> = paths.iter().map(|(it, _)| of(it.display(), pipe.open(it))).collect();
        let inputs = inputs?;
        pipe.read(false).write(true);
        let mut outputs: Vec<Option<File>> = paths.iter().map(|_| None).collect();
        while outputs.iter().any(Option::is_none) {
            for ((_, path), file) in paths.iter().zip(&mut outputs).filter(|(_, file)| file.is_none()) {
                match pipe.open(path) {
                    Err(fault) if fault.raw_os_error() == Some(NO_READER) => {}
                    opened => *file = Some(of(path.display(), opened)?),
                }
            }
            // Only a signal can arrive yet.
            if of("events", self.shared.epoll.wait(&mut [Event::default()], PAUSE))? > 0 {
                return Ok(false);
            }
        }
        let mut pairs = inputs.into_iter().zip(outputs.into_iter().flatten()).enumerate();
        for (place, (replies, requests)) in pairs.by_ref().take(options.workers.len()) {
            self.workers.push(of("events", Worker::new(place, requests, replies, &self.shared.epoll))?);
        }
        for ((place, (requests, replies)), spare) in pairs.zip(spares) {
            self.links.push(of("events", Link::new(place, requests, replies, spare, &self.shared))?);
        }
        Ok(true)
    }

    /// Waits for events, for `patience` at most, and handles them. True if a signal arrived.
    fn turn(&mut self, patience: Duration) -> Result<bool, String> {
        let mut events = [Event::default(); EVENTS];
        let count = of("events", self.shared.epoll.wait(&mut events, patience))?;
        self.shared.now = Instant::now();
        let mut ends = false;
        for Event { flags, token } in events[..count].iter().copied() {
            let place = (token >> PLACE) as usize;
            match token {
                SIGNALS => ends = true,
                LISTENERS.. => self.take_client((token - LISTENERS) as usize),
                STORE => self.take_spares(),
                _ => self.see(place, token, flags)?,
            }
        }
        self.hand_over()?;
        Ok(ends)
    }

    /// Handles an event of a worker or of a link.
    fn see(&mut self, place: usize, token: u64, flags: u32) -> Result<(), String> {
        let shared = &mut self.shared;
        match place.checked_sub(self.workers.len()) {
            None => {
                of(format_args!("worker {place} has ended"), self.workers[place].see(token, flags, shared))?;
                self.close_greatest();
                Ok(())
            }
            Some(link) => of(format_args!("far link {link} has ended"), self.links[link].see(token, flags, shared)),
        }
    }

    /// Sends to the workers, the devices and the store what is there for them.
    fn hand_over(&mut self) -> Result<(), String> {
        self.tell_figures();
        self.hand_over_to_workers()?;
        self.shared.wakes = false;
        // Input that is held of a client counts too, and its worker has to learn at once that it was closed.
        while self.close_greatest() {
            self.hand_over_to_workers()?;
        }
        let Some(store) = &self.store else { return Ok(()) };
        for (number, link) in self.links.iter_mut().enumerate() {
            of(format_args!("far link {number} has ended"), link.hand_over(store.patience(), &mut self.shared))?;
            if let Some(why) = link.take_failure() {
                let text = format_args!("far store {}: a connection ends: {why}", store.name());
                self.shared.log.line(Subject::StoreFails, self.shared.now, text);
            }
            if link.wants_spare(self.shared.now) {
                store.greet(number);
            }
        }
        Ok(())
    }

    fn hand_over_to_workers(&mut self) -> Result<(), String> {
        for (place, worker) in self.workers.iter_mut().enumerate() {
            of(format_args!("worker {place} has ended"), worker.hand_over(&mut self.shared))?;
        }
        Ok(())
    }

    /// Closes the clients that take the most, while all together take more than they may. Returns whether
    /// there were any.
    fn close_greatest(&mut self) -> bool {
        let closed = self.shared.memory.closed;
        while let Some(half) = self.shared.memory.above() {
            let each = self.workers.iter().enumerate();
            let greatest = each.filter_map(|(place, it)| it.greatest(half).map(|it| (it, place))).max();
            let Some(((_, number), place)) = greatest else { break };
            self.shared.memory.closed += 1;
            let text = format_args!("a client was closed: all clients take more than their part of the memory {half}");
            self.shared.log.line(Subject::Memory, self.shared.now, text);
            self.workers[place].drop_client(number, &mut self.shared);
        }
        self.shared.memory.closed > closed
    }

    /// Reports to the first worker the figures that have changed.
    fn tell_figures(&mut self) {
        let (memory, now) = (&self.shared.memory, self.shared.now);
        let values = [self.refused, memory.closed, memory.sum(), self.resident];
        for (figure, value) in self.figures.iter_mut().zip(values) {
            if figure.is_due(value, now) && self.workers[0].tell(format_args!("{} {value}", figure.name)).is_ok() {
                figure.tell(value, now);
            }
        }
    }

    /// Asks the first worker for what the log is to have. If there is no memory for the note, it is asked at the
    /// next sweep.
    fn ask_news(&mut self) {
        if self.shared.log.is_on() && !self.shared.news.is_asked {
            self.shared.news.is_asked = self.workers[0].tell(format_args!("news")).is_ok();
        }
    }

    /// Gives the links the connections that were made for them.
    fn take_spares(&mut self) {
        let Some(store) = &self.store else { return };
        for (link, made) in store.greeted() {
            let (name, now) = (store.name(), self.shared.now);
            match &made {
                Ok(_) if self.store_fails => {
                    let text = format_args!("far store {name}: it is reached again");
                    self.shared.log.line(Subject::StoreBack, now, text);
                }
                Ok(_) => {}
                Err(fault) => {
                    let text = format_args!("far store {name}: {}", store.why(fault));
                    self.shared.log.line(Subject::StoreFails, now, text);
                }
            }
            self.store_fails = made.is_err();
            self.links[link].take_spare(made.ok(), &self.shared);
        }
    }

    /// Accepts a client for the next worker. Refuses it if there are too many, or if there is no memory for
    /// it.
    fn take_client(&mut self, listener: usize) {
        match self.listeners[listener].accept() {
            Ok((socket, address)) => {
                let taken = match self.shared.clients < self.connections {
                    true => self.workers[self.next].take_client(socket, address.bytes(), &mut self.shared),
                    false => Err(socket),
                };
                match taken {
                    Ok(()) => {
                        let (worker, address) = (self.next, address.bytes().escape_ascii());
                        let text = format_args!("a client has connected from {address}, to worker {worker}");
                        self.shared.log.line(Subject::Opened, self.shared.now, text);
                        self.next = (self.next + 1) % self.workers.len();
                    }
                    Err(socket) => self.refuse(socket),
                }
            }
            // The client has gone.
            Err(fault) if matches!(fault.kind(), ErrorKind::WouldBlock | ErrorKind::ConnectionAborted) => {}
            Err(fault) => {
                let text = format_args!("a client can't be accepted: {}", Why(&fault));
                self.shared.log.line(Subject::Shortage, self.shared.now, text);
                thread::sleep(PAUSE);
            }
        }
        self.close_greatest();
    }

    /// Refuses a client by an error.
    fn refuse(&mut self, mut socket: File) {
        // A new socket has room for it.
        let _ = socket.write(REFUSAL);
        self.refused += 1;
        let (most, now) = (self.connections, self.shared.now);
        match self.shared.clients < most {
            true => self.shared.log.line(Subject::Shortage, now, format_args!("a client was refused: no memory")),
            false => {
                let text = format_args!("a client was refused: there are {most} connections, the most that may be");
                self.shared.log.line(Subject::Refused, now, text);
            }
        }
    }

    /// Takes no more input, and waits until no reply is owed, a second at most. If a worker fails now, it
    /// owes nothing.
    fn stop(&mut self) {
        self.listeners.clear();
        self.workers.iter_mut().for_each(|it| it.end_inputs(&mut self.shared));
        // Further signals change nothing.
        let _ = self.shared.epoll.watch(&self.signals, INPUT, 0, SIGNALS);
        let end = Instant::now() + END;
        let mut stands = self.hand_over().is_ok();
        while stands && self.workers.iter().any(Worker::has_clients) {
            let left = end.saturating_duration_since(Instant::now());
            stands = !left.is_zero() && self.turn(left).is_ok();
        }
    }
}
