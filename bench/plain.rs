// The month's changing calls in plain Rust, with the same checks and the same (net) board, on the full month that the
// program `fullmonth` stages. What it prints is compared by `bench/run` with the proved program's times.
use std::hint::black_box;
use std::time::Instant;

const AGENTS: usize = 64;
const HOURS: usize = 744;
const PLACES: usize = 256;
const MOST_AMOUNT: u32 = 1_000_000_000;
const MOST_TOTAL: u64 = 2_000_000_000;

#[derive(Clone, Copy, PartialEq, Eq, Debug)]
enum Class {
    Free,
    Retail,
    Regulated,
    Plant,
}

#[derive(Clone, Copy, PartialEq, Eq, Debug)]
enum State {
    Offered,
    InForce,
    Ended,
}

#[derive(Clone, Copy, PartialEq, Eq, Debug)]
struct Contract {
    number: u16,
    seller: u16,
    buyer: u16,
    submarket: u16,
    class: Class,
    source: u16,
    first: u16,
    last: u16,
    amount: u32,
    effective: u32,
    state: State,
}

#[derive(Clone, Copy, PartialEq, Eq, Debug)]
struct Fault {
    number: u16,
    spot: usize,
}

fn refuse<T>(number: u16, spot: usize) -> Result<T, Fault> {
    Err(Fault { number, spot })
}

trait Scale {
    fn length(&self) -> usize;
    // Parts count from 1.
    fn weight(&self, part: usize) -> u32;
}

struct Even(usize);

impl Scale for Even {
    fn length(&self) -> usize {
        self.0
    }
    fn weight(&self, part: usize) -> u32 {
        (1..=self.0).contains(&part) as u32
    }
}

struct Row<'a>(&'a [u32]);

impl Scale for Row<'_> {
    fn length(&self) -> usize {
        self.0.len()
    }
    fn weight(&self, part: usize) -> u32 {
        self.0.get(part.wrapping_sub(1)).copied().unwrap_or(0)
    }
}

struct Clip<'a, S> {
    scale: &'a S,
    first: usize,
    last: usize,
}

impl<S: Scale> Scale for Clip<'_, S> {
    fn length(&self) -> usize {
        self.scale.length()
    }
    fn weight(&self, part: usize) -> u32 {
        if part >= self.first && part <= self.last {
            self.scale.weight(part)
        } else {
            0
        }
    }
}

fn total(scale: &impl Scale) -> Result<u32, Fault> {
    let mut so_far = 0u64;
    for part in 1..=scale.length() {
        so_far += u64::from(scale.weight(part));
        if so_far > MOST_TOTAL {
            return refuse(13, part);
        }
    }
    if so_far == 0 { refuse(12, 0) } else { Ok(so_far as u32) }
}

// Shares an amount over a scale of a known total.
fn spread(amount: u32, total: u32, scale: &impl Scale, out: &mut [u32]) {
    let (mut weight, mut before) = (0u64, 0u64);
    for (i, place) in out.iter_mut().enumerate() {
        weight += u64::from(scale.weight(i + 1));
        let upto = u64::from(amount) * weight / u64::from(total);
        *place = (upto - before) as u32;
        before = upto;
    }
}

struct Month {
    taken: usize,
    places: Vec<Contract>,
    rows: Vec<u32>,
    shortfalls: Vec<u64>,
    board: Vec<i64>,
}

fn row_total(row: &[u32]) -> u64 {
    row.iter().map(|q| u64::from(*q)).sum()
}

impl Contract {
    fn in_force(&self) -> bool {
        self.state == State::InForce
    }

    fn within_limits(&self) -> bool {
        let agents = 1..=AGENTS as u16;
        self.number >= 1
            && agents.contains(&self.seller)
            && agents.contains(&self.buyer)
            && (1..=4).contains(&self.submarket)
            && self.source <= 1
            && self.first >= 1
            && self.first <= self.last
            && self.last as usize <= HOURS
            && (1..=MOST_AMOUNT).contains(&self.amount)
            && self.seller != self.buyer
            && self.effective <= self.amount
    }
}

impl Month {
    fn open() -> Month {
        // Memory is written before it is opened, as in `fullmonth`: else the first calls would pay for fresh pages.
        let mut month = Month {
            taken: 0,
            places: vec![offer_of(0); PLACES],
            rows: vec![77; PLACES * HOURS],
            shortfalls: vec![5; AGENTS],
            board: vec![5; AGENTS * 4 * HOURS],
        };
        month.shortfalls.fill(0);
        month.board.fill(0);
        month
    }

    // The lengths of the memories, and whether the book is sound.
    fn admit(&self) -> Result<(), Fault> {
        if self.places.len() != PLACES {
            return refuse(1, 1);
        }
        if self.rows.len() != PLACES * HOURS {
            return refuse(1, 2);
        }
        if self.shortfalls.len() != AGENTS {
            return refuse(1, 3);
        }
        if self.board.len() != AGENTS * 4 * HOURS {
            return refuse(1, 4);
        }
        if self.shortfalls.iter().any(|s| *s > MOST_TOTAL) {
            return refuse(2, 0);
        }
        let mut totals = [0u64; AGENTS + 1];
        let taken = &self.places[..self.taken];
        for (i, (contract, row)) in taken.iter().zip(self.rows.chunks_exact(HOURS)).enumerate() {
            if !contract.within_limits() {
                return refuse(2, i + 1);
            }
            if contract.in_force() {
                let sold = &mut totals[contract.seller as usize];
                *sold += u64::from(contract.amount);
                if row_total(row) != u64::from(contract.amount) || *sold > MOST_TOTAL {
                    return refuse(2, i + 1);
                }
            }
        }
        Ok(())
    }

    fn find(&self, number: u16) -> Option<usize> {
        self.places[..self.taken].iter().position(|c| c.number == number)
    }

    fn offer(&mut self, contract: Contract) -> Result<(), Fault> {
        self.admit()?;
        if !contract.within_limits() {
            return refuse(4, 0);
        }
        if let Some(i) = self.find(contract.number) {
            return refuse(6, i + 1);
        }
        if self.taken == PLACES {
            return refuse(7, 0);
        }
        self.places[self.taken] = contract;
        self.taken += 1;
        Ok(())
    }

    fn confirm(&mut self, number: u16, agent: u16, scale: &impl Scale) -> Result<(), Fault> {
        self.admit()?;
        let Some(at) = self.find(number) else {
            return refuse(8, 0);
        };
        let contract = self.places[at];
        if agent != contract.buyer {
            return refuse(9, at + 1);
        }
        if contract.state != State::Offered {
            return refuse(10, at + 1);
        }
        if scale.length() != HOURS {
            return refuse(11, 0);
        }
        let (first, last) = (contract.first as usize, contract.last as usize);
        let clip = Clip { scale, first, last };
        let weight = total(&clip)?;
        let sold: u64 = self.places[..self.taken]
            .iter()
            .filter(|c| c.in_force() && c.seller == contract.seller)
            .map(|c| u64::from(c.amount))
            .sum();
        if sold + u64::from(contract.amount) > MOST_TOTAL {
            return refuse(15, at + 1);
        }
        spread(contract.amount, weight, &clip, &mut self.rows[at * HOURS..(at + 1) * HOURS]);
        let old = self.held();
        self.places[at].state = State::InForce;
        self.settle(contract.seller, &old);
        Ok(())
    }

    fn end(&mut self, number: u16, agent: u16) -> Result<(), Fault> {
        self.admit()?;
        let Some(at) = self.find(number) else {
            return refuse(8, 0);
        };
        let contract = self.places[at];
        if agent != contract.seller && agent != contract.buyer {
            return refuse(9, at + 1);
        }
        if contract.state == State::Ended {
            return refuse(10, at + 1);
        }
        let old = self.held();
        self.places[at].state = State::Ended;
        self.places[at].effective = 0;
        self.settle(contract.seller, &old);
        Ok(())
    }

    fn tell(&mut self, agent: u16, kwh: u64) -> Result<(), Fault> {
        self.admit()?;
        if agent < 1 || agent as usize > AGENTS {
            return refuse(4, 1);
        }
        if kwh > MOST_TOTAL {
            return refuse(16, 0);
        }
        let old = self.held();
        self.shortfalls[agent as usize - 1] = kwh;
        self.settle(agent, &old);
        Ok(())
    }

    // What each place delivers now: its effective amount, if it is in force.
    fn held(&self) -> [Option<u32>; PLACES] {
        let mut held = [None; PLACES];
        for (slot, contract) in held.iter_mut().zip(&self.places[..self.taken]) {
            *slot = contract.in_force().then_some(contract.effective);
        }
        held
    }

    // Sets a seller's effective amounts by the cut rule, and moves the board for those that changed.
    fn settle(&mut self, seller: u16, old: &[Option<u32>; PLACES]) {
        self.recut(seller);
        let mut quantities = [0u32; HOURS];
        for at in 0..self.taken {
            let contract = self.places[at];
            let new = contract.in_force().then_some(contract.effective);
            if contract.seller != seller || new == old[at] {
                continue;
            }
            for (effective, sign) in [(old[at], -1), (new, 1)] {
                if let Some(effective) = effective {
                    let row = Row(&self.rows[at * HOURS..(at + 1) * HOURS]);
                    spread(effective, contract.amount, &row, &mut quantities);
                    self.post(&contract, &quantities, sign);
                }
            }
        }
    }

    fn recut(&mut self, seller: u16) {
        let taken = &mut self.places[..self.taken];
        let mut remains = self.shortfalls[seller as usize - 1];
        for class in [Class::Free, Class::Retail, Class::Regulated, Class::Plant] {
            let counts = |c: &Contract| c.in_force() && c.seller == seller && c.class == class;
            let whole: u64 = taken.iter().filter(|c| counts(c)).map(|c| u64::from(c.amount)).sum();
            let cut = if class == Class::Plant { 0 } else { remains.min(whole) };
            remains -= cut;
            let (mut weight, mut before) = (0u64, 0u64);
            for contract in taken.iter_mut().filter(|c| counts(c)) {
                weight += u64::from(contract.amount);
                let upto = cut * weight / whole;
                contract.effective = contract.amount - (upto - before) as u32;
                before = upto;
            }
        }
    }

    fn post(&mut self, contract: &Contract, quantities: &[u32], sign: i64) {
        for (agent, sign) in [(contract.seller, sign), (contract.buyer, -sign)] {
            let lane = (agent as usize - 1) * 4 + (contract.submarket as usize - 1);
            let entries = &mut self.board[lane * HOURS..(lane + 1) * HOURS];
            for (entry, quantity) in entries.iter_mut().zip(quantities) {
                *entry = entry.wrapping_add(sign * i64::from(*quantity));
            }
        }
    }
}

// The staged month: the same formulas as in crates/fullmonth.
fn offer_of(p: usize) -> Contract {
    let seller = p % AGENTS;
    let apart = 1 + (p * 29 + p / AGENTS * 7) % (AGENTS - 1);
    let class = match (p / AGENTS * (1 + p % 3) + p % 5) % 4 {
        0 => Class::Free,
        1 => Class::Retail,
        2 => Class::Regulated,
        _ => Class::Plant,
    };
    Contract {
        number: (1000 + 3 * p) as u16,
        seller: (seller + 1) as u16,
        buyer: ((seller + apart) % AGENTS + 1) as u16,
        submarket: ((p / AGENTS + p) % 4 + 1) as u16,
        class,
        source: (p / 2 % 2) as u16,
        first: (1 + p * 13 % 200) as u16,
        last: (HOURS - p * 17 % 200) as u16,
        amount: (1_000_003 + p * 7_654_321 % 480_000_000) as u32,
        effective: 0,
        state: State::Offered,
    }
}

fn weights_of(p: usize) -> Vec<u32> {
    (1..=HOURS).map(|h| (1 + (h * h * 31 + p * 7) % 1000) as u32).collect()
}

fn ends(p: usize) -> bool {
    (p + p / AGENTS) % 4 == 1
}

// Confirms a place on the scale of its shape: even, a row, or a row clipped once more.
fn confirm_place(month: &mut Month, p: usize, weights: &[u32]) -> Result<(), Fault> {
    let offer = offer_of(p);
    let row = Row(weights);
    match p % 3 {
        0 => month.confirm(offer.number, offer.buyer, &Even(HOURS)),
        1 => month.confirm(offer.number, offer.buyer, &row),
        _ => {
            let clip = Clip { scale: &row, first: 100, last: 600 };
            month.confirm(offer.number, offer.buyer, &clip)
        }
    }
}

fn timed(times: &mut Vec<u128>, call: impl FnOnce() -> Result<(), Fault>) -> Result<(), Fault> {
    let start = Instant::now();
    let answer = black_box(call());
    times.push(start.elapsed().as_nanos());
    answer
}

fn report(name: &str, mut times: Vec<u128>) {
    times.sort();
    println!("{name} {} {}", times.len(), times[times.len() / 2]);
}

fn repeat_all(month: &mut Month, weights: &[Vec<u32>], times: &mut Vec<u128>) {
    for p in 0..PLACES {
        let answer = timed(times, || confirm_place(month, p, &weights[p]));
        assert_eq!(answer, refuse(10, p + 1));
    }
}

// What all contracts in force come to, by which the two programs show that they staged the same month.
fn sold(month: &Month) -> u64 {
    month.places.iter().filter(|c| c.in_force()).map(|c| u64::from(c.effective)).sum()
}

fn main() -> Result<(), Fault> {
    let mut month = Month::open();
    let weights: Vec<Vec<u32>> = (0..PLACES).map(weights_of).collect();
    for p in 0..PLACES {
        month.offer(offer_of(p))?;
    }
    let (mut confirms, mut repeats, mut tells, mut ends_of) = (vec![], vec![], vec![], vec![]);
    for p in 0..PLACES {
        timed(&mut confirms, || confirm_place(&mut month, p, &weights[p]))?;
    }
    repeat_all(&mut month, &weights, &mut repeats);
    for factor in [31_415_926, 27_182_818] {
        for agent in 1..=AGENTS as u16 {
            timed(&mut tells, || month.tell(agent, u64::from(agent) * factor % 2_000_000_001))?;
        }
    }
    repeat_all(&mut month, &weights, &mut repeats);
    let mut passes = vec![];
    for _ in 0..256 {
        timed(&mut passes, || {
            let rows = black_box(&month.rows);
            black_box(rows.chunks_exact(HOURS).map(row_total).max());
            Ok(())
        })?;
    }
    for p in (0..PLACES).filter(|p| ends(*p)) {
        let offer = offer_of(p);
        let agent = if p % 2 == 0 { offer.seller } else { offer.buyer };
        timed(&mut ends_of, || month.end(offer.number, agent))?;
    }
    for (name, times) in [("confirm", confirms), ("repeat", repeats), ("tell", tells), ("end", ends_of), ("pass", passes)] {
        report(name, times);
    }
    println!("sold {}", sold(&month));
    Ok(())
}
