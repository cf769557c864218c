//! Places for connections. When all are taken, one gives way: of a host that has more than a quarter of them, if there is such; one that has nothing open
//! before one that has; of these the one that has moved on longest ago.

use eistulko::Refused;
use quinn::{Connection, VarInt};
use std::cell::{Cell, RefCell};
use std::collections::HashMap;
use std::net::IpAddr;
use std::rc::{Rc, Weak};
use std::time::Instant;

const MOST: usize = 1024;

#[derive(Default)]
pub struct Places(RefCell<Vec<Weak<Place>>>);

pub struct Place {
    quic: Connection,
    open: Cell<usize>, // requests and answers
    moved: Cell<Instant>,
}

/// While it lives, a request is open.
pub struct Busy<'a>(&'a Place);

impl Drop for Busy<'_> {
    fn drop(&mut self) {
        self.0.open.set(self.0.open.get() - 1);
        self.0.move_on();
    }
}

impl Place {
    pub fn busy(&self) -> Busy<'_> {
        self.open.set(self.open.get() + 1);
        Busy(self)
    }

    pub fn move_on(&self) {
        self.moved.set(Instant::now());
    }

    /// 127.0.0.1 alone is listened on, so no address is of IPv6.
    fn host(&self) -> IpAddr {
        self.quic.remote_address().ip()
    }
}

impl Places {
    pub fn take(&self, quic: &Connection) -> Rc<Place> {
        let mut places = self.0.borrow_mut();
        places.retain(|place| place.upgrade().is_some_and(|p| p.quic.close_reason().is_none()));
        if places.len() >= MOST {
            give_way(&places.iter().filter_map(Weak::upgrade).collect::<Vec<_>>());
        }
        let place =
            Rc::new(Place { quic: quic.clone(), open: Cell::new(0), moved: Cell::new(Instant::now()) });
        places.push(Rc::downgrade(&place));
        place
    }
}

fn give_way(places: &[Rc<Place>]) {
    let mut counts = HashMap::new();
    for place in places {
        *counts.entry(place.host()).or_insert(0) += 1;
    }
    let crowding = counts.iter().find(|(_, &count)| count > MOST / 4).map(|(host, _)| *host);
    let first = places
        .iter()
        .filter(|place| crowding.is_none_or(|host| place.host() == host))
        .min_by_key(|place| (place.open.get() > 0, place.moved.get()));
    if let Some(place) = first {
        let code = VarInt::from_u64(Refused::ExcessiveLoad.number()).expect("an error code");
        place.quic.close(code, b"");
    }
}
