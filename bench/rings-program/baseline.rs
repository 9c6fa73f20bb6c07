//! The same loop as main.rt over a plain ring of atomics: no part of the product.
use std::cell::UnsafeCell;
use std::sync::Arc;
use std::sync::atomic::{AtomicU16, AtomicU64, Ordering};
use std::time::Instant;

/// How many numbers each row passes.
const COUNT: u32 = 1_000_000;

/// A moment in which no memory is touched that the other thread writes: the clock is read.
fn look_again() {
    for _ in 0..READINGS {
        std::hint::black_box(Instant::now());
    }
}

struct Page {
    bytes: Box<[u8; 4096]>,
    used: usize,
}

/// An index, on a cache line of its own.
#[repr(align(64))]
struct Index(AtomicU16);

/// One queue: descriptor words, available entries and index, used elements and index, and a slot for each page.
struct Shared {
    size: usize,
    descriptors: Vec<AtomicU64>,
    available: Vec<AtomicU16>,
    available_index: Index,
    used: Vec<AtomicU64>,
    used_index: Index,
    slots: Vec<UnsafeCell<Option<Page>>>,
}

unsafe impl Sync for Shared {}

struct Driver {
    shared: Arc<Shared>,
    free: Vec<u16>,
    offered: u16,
    staged: u16,
    batch: u16,
    taken: u16,
}

struct Device {
    shared: Arc<Shared>,
    taken: u16,
    given: u16,
}

impl Driver {
    #[inline(always)]
    fn post(&mut self, page: Page) {
        let slot = self.free.pop().unwrap();
        let place = self.offered as usize % self.shared.size;
        self.shared.descriptors[slot as usize].store(page.used as u64, Ordering::Relaxed);
        unsafe { *self.shared.slots[slot as usize].get() = Some(page) };
        self.shared.available[place].store(slot, Ordering::Relaxed);
        self.offered = self.offered.wrapping_add(1);
        self.staged += 1;
        if self.staged >= self.batch {
            self.shared.available_index.0.store(self.offered, Ordering::Release);
            self.staged = 0;
        }
    }

    #[inline(always)]
    fn reap(&mut self) -> Option<Page> {
        if self.shared.used_index.0.load(Ordering::Acquire) == self.taken {
            return None;
        }
        let element = self.shared.used[self.taken as usize % self.shared.size].load(Ordering::Relaxed);
        let slot = element as u32 as u16;
        self.taken = self.taken.wrapping_add(1);
        self.free.push(slot);
        unsafe { (*self.shared.slots[slot as usize].get()).take() }
    }
}

impl Device {
    #[inline(always)]
    fn take(&mut self) -> Option<(u16, Page)> {
        if self.shared.available_index.0.load(Ordering::Acquire) == self.taken {
            return None;
        }
        let slot = self.shared.available[self.taken as usize % self.shared.size].load(Ordering::Relaxed);
        std::hint::black_box(self.shared.descriptors[slot as usize].load(Ordering::Relaxed));
        self.taken = self.taken.wrapping_add(1);
        let page = unsafe { (*self.shared.slots[slot as usize].get()).take() };
        page.map(|page| (slot, page))
    }

    #[inline(always)]
    fn give(&mut self, slot: u16, page: Page) {
        let element = (page.used as u64) << 32 | slot as u64;
        self.shared.used[self.given as usize % self.shared.size].store(element, Ordering::Relaxed);
        unsafe { *self.shared.slots[slot as usize].get() = Some(page) };
        self.given = self.given.wrapping_add(1);
        self.shared.used_index.0.store(self.given, Ordering::Release);
    }
}

/// Both ends, with all pages posted once `fill` has written into each what its number says.
fn opened(size: usize, batch: u16, fill: fn(&mut Page, u32)) -> (Driver, Device) {
    let shared = Arc::new(Shared {
        size,
        descriptors: (0..size).map(|_| AtomicU64::new(0)).collect(),
        available: (0..size).map(|_| AtomicU16::new(0)).collect(),
        available_index: Index(AtomicU16::new(0)),
        used: (0..size).map(|_| AtomicU64::new(0)).collect(),
        used_index: Index(AtomicU16::new(0)),
        slots: (0..size).map(|_| UnsafeCell::new(None)).collect(),
    });
    let mut driver = Driver {
        shared: shared.clone(),
        free: (0..size as u16).rev().collect(),
        offered: 0,
        staged: 0,
        batch,
        taken: 0,
    };
    for number in 0..size as u32 {
        let mut page = Page {
            bytes: Box::new([0; 4096]),
            used: 0,
        };
        fill(&mut page, number);
        driver.post(page);
    }
    (
        driver,
        Device {
            shared,
            taken: 0,
            given: 0,
        },
    )
}

#[inline(always)]
fn serve_one(device: &mut Device, number: u32) -> bool {
    let Some((slot, mut page)) = device.take() else {
        return false;
    };
    page.bytes[..4].copy_from_slice(&number.to_le_bytes());
    page.used = 4;
    device.give(slot, page);
    true
}

#[inline(always)]
fn reap_one(driver: &mut Driver, number: u32) -> Option<bool> {
    let mut page = driver.reap()?;
    let right = page.used == 4 && page.bytes[..4] == number.to_le_bytes();
    page.used = 0;
    driver.post(page);
    Some(right)
}

/// One thread gives the numbers from `first` on and takes those from 0 on, `count` of them, in turn; the first is given already where `first`
/// is above 0. Answers how many came right.
#[inline(always)]
fn one(
    first: u32,
    count: u32,
    mut give: impl FnMut(u32) -> bool,
    mut take: impl FnMut(u32) -> Option<bool>,
) -> u32 {
    let mut right = 0;
    for number in 0..count {
        if first == 0 {
            give(number);
        }
        right += take(number).unwrap_or(false) as u32;
        if first > 0 {
            give(first + number);
        }
    }
    right
}

/// One thread gives the numbers from `first` on that are below `count`, and another takes those from 0 on.
#[inline(always)]
fn two(
    first: u32,
    count: u32,
    mut give: impl FnMut(u32) -> bool + Send,
    mut take: impl FnMut(u32) -> Option<bool>,
) -> u32 {
    std::thread::scope(|scope| {
        scope.spawn(move || {
            let mut number = first;
            while number < count {
                if give(number) {
                    number += 1;
                } else {
                    look_again();
                }
            }
        });
        let (mut number, mut right) = (0, 0);
        while number < count {
            match take(number) {
                Some(is) => {
                    right += is as u32;
                    number += 1;
                }
                None => look_again(),
            }
        }
        right
    })
}

/// How many came right, and the milliseconds.
#[inline(always)]
fn timed(
    is_one: bool,
    first: u32,
    give: impl FnMut(u32) -> bool + Send,
    take: impl FnMut(u32) -> Option<bool>,
) -> (u32, u128) {
    let start = Instant::now();
    let right = if is_one {
        one(first, COUNT, give, take)
    } else {
        two(first, COUNT, give, take)
    };
    (right, start.elapsed().as_millis())
}

fn event(is_one: bool, size: usize, batch: u16) -> (u32, u128) {
    let (mut driver, mut device) = opened(size, batch, |_, _| ());
    timed(is_one, 0, |number| serve_one(&mut device, number), |number| reap_one(&mut driver, number))
}

/// A packet's header, 44 bytes on the wire.
#[derive(PartialEq, Eq)]
struct Header {
    cids: [u64; 2],
    ports_and_len: [u32; 3],
    kind_and_op: [u16; 2],
    flags_and_credit: [u32; 3],
}

/// That of the packet of a number: the first is the REQUEST's, the others are RSTs.
fn numbered(number: u32) -> Header {
    let (op, buf_alloc) = if number == 0 { (1, 65536) } else { (3, number) };
    Header {
        cids: [3, 2],
        ports_and_len: [1024, 52, 0],
        kind_and_op: [1, op],
        flags_and_credit: [0, buf_alloc, 0],
    }
}

fn put_packet(page: &mut Page, number: u32) {
    let header = numbered(number);
    for (at, field) in header.cids.iter().enumerate() {
        page.bytes[8 * at..8 * at + 8].copy_from_slice(&field.to_le_bytes());
    }
    for (at, field) in header.ports_and_len.iter().enumerate() {
        page.bytes[16 + 4 * at..20 + 4 * at].copy_from_slice(&field.to_le_bytes());
    }
    for (at, field) in header.kind_and_op.iter().enumerate() {
        page.bytes[28 + 2 * at..30 + 2 * at].copy_from_slice(&field.to_le_bytes());
    }
    for (at, field) in header.flags_and_credit.iter().enumerate() {
        page.bytes[32 + 4 * at..36 + 4 * at].copy_from_slice(&field.to_le_bytes());
    }
    page.used = 44;
}

fn decoded(bytes: &[u8; 44]) -> Header {
    let long = |at: usize| u64::from_le_bytes(bytes[at..at + 8].try_into().unwrap());
    let word = |at: usize| u32::from_le_bytes(bytes[at..at + 4].try_into().unwrap());
    let short = |at: usize| u16::from_le_bytes(bytes[at..at + 2].try_into().unwrap());
    Header {
        cids: [long(0), long(8)],
        ports_and_len: [word(16), word(20), word(24)],
        kind_and_op: [short(28), short(30)],
        flags_and_credit: [word(32), word(36), word(40)],
    }
}

#[inline(always)]
fn receive_one(device: &mut Device, number: u32) -> Option<bool> {
    let (slot, mut page) = device.take()?;
    let mut bytes = [0; 44];
    bytes.copy_from_slice(&page.bytes[..44]);
    page.used = 0;
    device.give(slot, page);
    Some(decoded(&bytes) == numbered(number))
}

#[inline(always)]
fn send_one(driver: &mut Driver, number: u32) -> bool {
    let Some(mut page) = driver.reap() else {
        return false;
    };
    put_packet(&mut page, number);
    driver.post(page);
    true
}

fn transmit(is_one: bool, size: usize, batch: u16) -> (u32, u128) {
    let (mut driver, mut device) = opened(size, batch, put_packet);
    timed(
        is_one,
        size as u32,
        |number| send_one(&mut driver, number),
        |number| receive_one(&mut device, number),
    )
}

#[inline(always)]
fn put_one(device: &mut Device, number: u32) -> bool {
    let Some((slot, mut page)) = device.take() else {
        return false;
    };
    put_packet(&mut page, number);
    device.give(slot, page);
    true
}

#[inline(always)]
fn get_one(driver: &mut Driver, number: u32) -> Option<bool> {
    let mut page = driver.reap()?;
    let right = page.used == 44 && decoded(page.bytes[..44].try_into().unwrap()) == numbered(number);
    page.used = 0;
    driver.post(page);
    Some(right)
}

fn receive(is_one: bool, size: usize, batch: u16) -> (u32, u128) {
    let (mut driver, mut device) = opened(size, batch, |_, _| ());
    put_one(&mut device, 0);
    timed(is_one, 1, |number| put_one(&mut device, number), |number| get_one(&mut driver, number))
}

/// The rows of one thread, and then those of two, unless the argument `one` is given; of events, or with `transmit` or `receive` of
/// packets.
fn main() {
    let has = |given: &str| std::env::args().any(|word| word == given);
    type Row = fn(bool, usize, u16) -> (u32, u128);
    let (name, row, rows): (_, Row, &[(usize, u16)]) = if has("transmit") {
        ("transmit", transmit, &[(8, 1), (256, 1)])
    } else if has("receive") {
        ("receive", receive, &[(8, 1), (256, 1), (256, 16)])
    } else {
        ("event", event, &[(8, 1), (256, 1), (256, 16)])
    };
    for (threads, is_one) in [("one", true), ("two", false)] {
        for &(size, batch) in rows {
            let (right, took) = row(is_one, size, batch);
            println!("{name} {threads} {size} {batch} {right} {took}");
        }
        if has("one") {
            return;
        }
    }
}
