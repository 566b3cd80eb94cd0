//! What the server reports for the log, once a second: how much has happened since its start.
//!
//! The first worker is asked by the note `news`, and answers by one. So it reports also while no client asks
//! for anything. Its numbers are sums, and a line tells of those that have changed.

use crate::log::{Log, Subject};
use std::time::{Duration, Instant};

/// How long nothing has to happen until the log says that it has ended.
const QUIET: Duration = Duration::from_secs(10);

/// The sums, in the order of `NAMES`.
#[derive(Clone, Copy, Default)]
struct Facts {
    evicted: u64,
    device_failures: u64,
    resting: u64,
    lost: u64,
    renewals: u64,
    renewal_ms: u64,
    renewal_lost_pairs: u64,
    renewal_lost_buckets: u64,
    slow: u64,
    slowest_us: u64,
}

impl Facts {
    /// The sum with this name. None if there is none.
    fn place(&mut self, name: &str) -> Option<&mut u64> {
        Some(match name {
            "evicted" => &mut self.evicted,
            "device_failures" => &mut self.device_failures,
            "resting" => &mut self.resting,
            "lost" => &mut self.lost,
            "renewals" => &mut self.renewals,
            "renewal_ms" => &mut self.renewal_ms,
            "renewal_lost_pairs" => &mut self.renewal_lost_pairs,
            "renewal_lost_buckets" => &mut self.renewal_lost_buckets,
            "slow" => &mut self.slow,
            "slowest_us" => &mut self.slowest_us,
            _ => return None,
        })
    }
}

/// Something that goes on: how often it has happened since it began, and when it last did.
type Spell = Option<(u64, Instant)>;

/// Adds `more` to what goes on. Returns the sum if it has ended.
fn ended(spell: &mut Spell, more: u64, now: Instant) -> Option<u64> {
    let (count, last) = spell.unwrap_or((0, now));
    if more > 0 {
        *spell = Some((count + more, now));
    } else if spell.is_some() && now - last >= QUIET {
        *spell = None;
        return Some(count);
    }
    None
}

/// What the server last reported.
#[derive(Default)]
pub struct News {
    last: Facts,
    evictions: Spell,
    failures: Spell,
    /// It was asked, and has not answered yet.
    pub is_asked: bool,
}

impl News {
    /// Takes an answer, that is what follows the word `news` in the note. Words that are not known are for
    /// later versions, and are ignored.
    pub fn take(&mut self, text: &str, log: &mut Log, now: Instant) {
        self.is_asked = false;
        let (mut facts, mut slowest) = (self.last, "");
        for (name, value) in text.split_ascii_whitespace().filter_map(|it| it.split_once('=')) {
            match (facts.place(name), value.parse()) {
                (Some(place), Ok(number)) => *place = number,
                _ if name == "slowest" => slowest = value,
                _ => {}
            }
        }
        self.tell_evictions(facts, log, now);
        self.tell_devices(facts, log, now);
        self.tell_renewals(facts, log, now);
        let slow = facts.slow.saturating_sub(self.last.slow);
        if slow > 0 {
            let took = facts.slowest_us;
            let text = format_args!("{slow} slow commands; the slowest, {slowest}, took {took} microseconds");
            log.line(Subject::Slow, now, text);
        }
        self.last = facts;
    }

    fn tell_evictions(&mut self, facts: Facts, log: &mut Log, now: Instant) {
        let (more, was_quiet) = (facts.evicted.saturating_sub(self.last.evicted), self.evictions.is_none());
        if let Some(count) = ended(&mut self.evictions, more, now) {
            log.line(Subject::Evictions, now, format_args!("evictions have ended: {count} keys were evicted"));
        }
        if more > 0 && was_quiet {
            log.line(Subject::Evictions, now, format_args!("evictions begin: the memory is full"));
        }
    }

    fn tell_devices(&mut self, facts: Facts, log: &mut Log, now: Instant) {
        let more = facts.device_failures.saturating_sub(self.last.device_failures);
        if more > 0 {
            log.line(Subject::Devices, now, format_args!("devices have failed: {more} calls"));
        }
        if let Some(count) = ended(&mut self.failures, more, now) {
            let text = format_args!("devices work again: {count} calls had failed, and none for 10 seconds");
            log.line(Subject::DevicesBack, now, text);
        }
        match (self.last.resting, facts.resting) {
            (0, 1..) => {
                log.line(Subject::Devices, now, format_args!("the far store fails: it is left alone for a while"))
            }
            (1.., 0) => log.line(Subject::DevicesBack, now, format_args!("the far store is used again")),
            _ => {}
        }
        let lost = facts.lost.saturating_sub(self.last.lost);
        if lost > 0 {
            log.line(
                Subject::Lost,
                now,
                format_args!("the far store has lost {lost} objects, and their keys with them"),
            );
        }
    }

    fn tell_renewals(&mut self, facts: Facts, log: &mut Log, now: Instant) {
        if facts.renewals > self.last.renewals {
            let (count, pause) = (facts.renewals, facts.renewal_ms);
            log.line(Subject::Renewals, now, format_args!("renewal {count}: requests waited {pause} milliseconds"));
        }
        let pairs = facts.renewal_lost_pairs.saturating_sub(self.last.renewal_lost_pairs);
        let buckets = facts.renewal_lost_buckets.saturating_sub(self.last.renewal_lost_buckets);
        if pairs + buckets > 0 {
            log.line(Subject::Lost, now, format_args!("a renewal has lost {pairs} keys, and {buckets} whole buckets"));
        }
    }
}
