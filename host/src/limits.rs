//! What one address may take of what everybody needs: wrong passwords are slowed down, and of open forms, waiting sign-ins and connections it
//! gets the less the fewer are left. An address is a host, or with IPv6 its network of 64 bits, which is one customer's.

use crate::clock;
use std::collections::{HashMap, VecDeque};
use std::net::{IpAddr, Ipv6Addr};
use std::sync::{Arc, Mutex, PoisonError};

/// Wrong passwords that an address has free, and the seconds after which one is forgotten.
const FREE: u64 = 5;
const FORGET: u64 = 20;
/// Addresses with wrong passwords that are remembered at most; beyond it the one with the least is forgotten.
const REMEMBERED: usize = 4_096;
/// Login tickets that a table holds, how long one may stand there (ten minutes, and until house is kept), and how many of them are kept for
/// addresses that are known.
const FORMS: usize = 32;
const FORM_LIFE: u64 = 600 + clock::KEEPING.as_secs();
const KEPT: usize = 8;
/// What an address may have is a third of what is left, so that alone it gets eight forms, or six of those that are not kept, and four addresses
/// together leave some. Ten or so can take all that are not kept, one by one.
const FORM_PARTS: usize = 3;
/// Addresses that are known at most.
const KNOWN: usize = 256;

/// Whom a limit is counted for.
#[derive(Clone, Copy, Debug, Eq, Hash, PartialEq)]
pub struct Source(IpAddr);

impl From<IpAddr> for Source {
    fn from(address: IpAddr) -> Self {
        Source(match address {
            IpAddr::V4(_) => address,
            IpAddr::V6(v6) => IpAddr::V6(Ipv6Addr::from(u128::from(v6) >> 64 << 64)),
        })
    }
}

/// Whether who has `own` of something may have one more while `left` of it are left: less than one of so many parts of these.
fn may_have(own: usize, left: usize, parts: usize) -> bool {
    own * parts < left
}

/// Wrong passwords by source: a level in seconds that each one raises by `FORGET` and that falls with the clock, kept as the time when it is 0.
#[derive(Default)]
pub struct Failures(HashMap<Source, u64>);

impl Failures {
    /// How many seconds this source has to wait before its next password is looked at, 0 for none.
    pub fn wait(&self, source: Source, now: u64) -> u64 {
        let level = self.0.get(&source).map_or(0, |empty| empty.saturating_sub(now));
        (level + FORGET).saturating_sub(FREE * FORGET)
    }

    pub fn add(&mut self, source: Source, now: u64) {
        self.0.retain(|_, empty| *empty > now);
        if self.0.len() >= REMEMBERED && !self.0.contains_key(&source) {
            let least = self.0.iter().min_by_key(|(_, empty)| **empty).map(|(source, _)| *source);
            least.map(|source| self.0.remove(&source));
        }
        let empty = self.0.entry(source).or_insert(now);
        *empty = (*empty).max(now) + FORGET;
    }
}

/// A login ticket that stands in a form.
struct Form {
    source: Source,
    ticket: String,
    ends: u64,
}

/// Why there is no form: the seconds until there may be one, and whether the address has forms open itself.
#[derive(Debug, PartialEq)]
pub struct NoForm {
    pub wait: u64,
    pub own: bool,
}

/// The login tickets in the table that this server has handed out, at most 32 of them, and the addresses that are known: from each of them
/// somebody has signed in with the right password. Only that makes an address known, so no stranger can fill this memory.
#[derive(Default)]
pub struct Forms {
    open: Vec<Form>,
    known: VecDeque<Source>,
}

impl Forms {
    /// Whether this source may have one more form, in place of the one that it has posted, if each source of `ahead` gets one before it.
    pub fn room(&self, source: Source, posted: Option<&str>, ahead: &[Source], now: u64) -> Result<(), NoForm> {
        let open: Vec<&Form> = self.open.iter().filter(|form| form.ends > now && Some(form.ticket.as_str()) != posted).collect();
        let held = open.iter().map(|form| form.source).chain(ahead.iter().copied());
        let (own, all) = held.fold((0, 0), |(own, all), holder| (own + usize::from(holder == source), all + 1));
        let kept = if self.known.contains(&source) { 0 } else { KEPT };
        if may_have(own, FORMS.saturating_sub(kept + all), FORM_PARTS) {
            return Ok(());
        }
        let ends = open.iter().filter(|form| own == 0 || form.source == source).map(|form| form.ends - now);
        Err(NoForm { wait: ends.min().unwrap_or(FORM_LIFE), own: own > 0 })
    }

    /// A posted ticket is spent.
    pub fn spent(&mut self, posted: Option<&str>) {
        self.open.retain(|form| Some(form.ticket.as_str()) != posted);
    }

    pub fn opened(&mut self, source: Source, ticket: &str, now: u64) {
        self.open.retain(|form| form.ends > now);
        self.open.push(Form { source, ticket: ticket.to_owned(), ends: now + FORM_LIFE });
    }

    /// From this source somebody has signed in. Of too many that are known, the one that did so longest ago is forgotten.
    pub fn signed_in(&mut self, source: Source) {
        self.known.retain(|known| *known != source);
        self.known.push_back(source);
        if self.known.len() > KNOWN {
            self.known.pop_front();
        }
    }
}

/// Places that are held for a while, and by whom. Each address may hold what `may_have` says of them.
#[derive(Clone)]
pub struct Places(Arc<Mutex<Held>>);

struct Held {
    left: usize,
    parts: usize,
    by: HashMap<Source, usize>,
}

/// A place, until it is dropped.
pub struct Place {
    places: Places,
    source: Source,
}

impl Places {
    pub fn new(all: usize, parts: usize) -> Places {
        Places(Arc::new(Mutex::new(Held { left: all, parts, by: HashMap::new() })))
    }

    /// A place for this source, `None` where it has its share or none is left.
    pub fn take(&self, source: Source) -> Option<Place> {
        let mut held = self.0.lock().unwrap_or_else(PoisonError::into_inner);
        let own = held.by.get(&source).copied().unwrap_or(0);
        if !may_have(own, held.left, held.parts) {
            return None;
        }
        held.left -= 1;
        held.by.insert(source, own + 1);
        Some(Place { places: self.clone(), source })
    }
}

impl Drop for Place {
    fn drop(&mut self) {
        let mut held = self.places.0.lock().unwrap_or_else(PoisonError::into_inner);
        held.left += 1;
        let own = held.by.get(&self.source).copied().unwrap_or(0);
        if own > 1 {
            held.by.insert(self.source, own - 1);
        } else {
            held.by.remove(&self.source);
        }
    }
}

#[cfg(test)]
mod tests {
    use super::*;

    fn source(text: &str) -> Source {
        text.parse::<IpAddr>().unwrap().into()
    }

    fn numbered(number: u32) -> Source {
        Source(IpAddr::V4(number.into()))
    }

    #[test]
    fn an_address_is_a_host_or_a_network_of_64_bits() {
        assert_ne!(source("10.0.0.1"), source("10.0.0.2"));
        assert_eq!(source("2001:db8::1"), source("2001:db8::2:1"));
        assert_ne!(source("2001:db8:0:1::1"), source("2001:db8:0:2::1"));
    }

    #[test]
    fn wrong_passwords_are_free_five_times_and_then_slow() {
        let (mut failures, ann, ben) = (Failures::default(), source("10.0.0.1"), source("10.0.0.2"));
        for _ in 0..5 {
            assert_eq!(failures.wait(ann, 1_000), 0);
            failures.add(ann, 1_000);
        }
        assert_eq!(failures.wait(ann, 1_000), 20);
        assert_eq!(failures.wait(ann, 1_019), 1);
        assert_eq!(failures.wait(ann, 1_020), 0);
        failures.add(ann, 1_020);
        assert_eq!(failures.wait(ann, 1_020), 20);
        assert_eq!(failures.wait(ben, 1_020), 0);
        assert_eq!(failures.wait(ann, 9_999), 0);
    }

    #[test]
    fn the_memory_of_failures_and_of_known_addresses_is_bounded() {
        let (mut failures, mut forms) = (Failures::default(), Forms::default());
        for number in 0..REMEMBERED as u32 + 10 {
            failures.add(numbered(number), 1_000);
            forms.signed_in(numbered(number));
        }
        assert_eq!((failures.0.len(), forms.known.len()), (REMEMBERED, KNOWN));
    }

    /// Opens as many forms as this source gets.
    fn take_all(forms: &mut Forms, source: Source) -> usize {
        let mut count = 0;
        while forms.room(source, None, &[], 1_000).is_ok() {
            forms.opened(source, &format!("LT-{}-{count}", source.0), 1_000 + count as u64);
            count += 1;
        }
        count
    }

    #[test]
    fn a_known_address_has_eight_forms_open_and_gets_the_next_when_one_is_spent_or_old() {
        let (mut forms, ann) = (Forms::default(), source("10.0.0.1"));
        forms.signed_in(ann);
        assert_eq!(take_all(&mut forms, ann), 8);
        assert_eq!(forms.room(ann, None, &[], 1_100), Err(NoForm { wait: 560, own: true }));
        assert_eq!(forms.room(ann, Some("LT-10.0.0.1-3"), &[], 1_100), Ok(()));
        assert!(forms.room(ann, None, &[], 1_659).is_err());
        assert_eq!(forms.room(ann, None, &[], 1_660), Ok(()));
        forms.spent(Some("LT-10.0.0.1-3"));
        assert_eq!(forms.room(ann, None, &[], 1_100), Ok(()));
        assert!(forms.room(ann, None, &[ann], 1_100).is_err());
    }

    #[test]
    fn strangers_leave_forms_for_others_and_never_take_those_that_are_kept() {
        let (mut forms, ann) = (Forms::default(), source("10.0.0.1"));
        forms.signed_in(ann);
        let taken: Vec<usize> = (0..4).map(|number| take_all(&mut forms, numbered(number))).collect();
        assert_eq!(taken, [6, 5, 4, 3]);
        assert_eq!(forms.room(numbered(4), None, &[], 1_000), Ok(()));
        (4..100).for_each(|number| {
            take_all(&mut forms, numbered(number));
        });
        assert_eq!(forms.open.len(), FORMS - KEPT);
        assert_eq!(forms.room(numbered(100), None, &[], 1_100), Err(NoForm { wait: 560, own: false }));
        assert_eq!(forms.room(ann, None, &[], 1_100), Ok(()));
    }

    #[test]
    fn places_go_by_share_and_come_back() {
        let (places, ann, ben) = (Places::new(16, 1), source("10.0.0.1"), source("10.0.0.2"));
        let own: Vec<Place> = std::iter::from_fn(|| places.take(ann)).collect();
        assert_eq!(own.len(), 8);
        let others: Vec<Place> = std::iter::from_fn(|| places.take(ben)).collect();
        assert_eq!(others.len(), 4);
        drop((own, others));
        assert_eq!(places.0.lock().unwrap().left, 16);
        assert!(places.0.lock().unwrap().by.is_empty());
    }
}
