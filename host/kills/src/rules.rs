//! The paper's rules over heads and states, once more and on their own: which diff is accepted, While and Done, the plan, and
//! the state record's bytes. Nothing here comes from the library that is tested.

pub const STATE_SIZE: usize = 28;

#[derive(Clone, Copy, PartialEq, Eq, Debug)]
pub struct Head {
    pub compared: bool,
    pub p: u64,
    pub q: u64,
}

impl Head {
    pub fn log(p: u64, q: u64) -> Head {
        let compared = false;
        Head { compared, p, q }
    }

    pub fn compared(p: u64, q: u64) -> Head {
        let compared = true;
        Head { compared, p, q }
    }

    pub fn name(&self) -> String {
        let kind = if self.compared { "compared" } else { "log" };
        format!("{kind}-{}-{}", self.p, self.q)
    }
}

pub const SETTLED: u8 = 0;
pub const SPAN: u8 = 1;
pub const PAIR: u8 = 2;

#[derive(Clone, Copy, PartialEq, Eq, Debug)]
pub struct State {
    pub kind: u8,
    pub b: u64,
    pub t: u64,
    pub e: u64,
}

impl State {
    pub fn settled(b: u64, e: u64) -> State {
        let kind = SETTLED;
        State { kind, b, t: b, e }
    }

    pub fn is_clean_at(&self, g: u64) -> bool {
        *self == State::settled(g, g)
    }

    fn is_clean(&self) -> bool {
        self.is_clean_at(self.b)
    }

    pub fn record(&self) -> Vec<u8> {
        let mut bytes = vec![0x57, 0x53, self.kind, 0];
        for gid in [self.b, self.t, self.e] {
            bytes.extend(gid.to_le_bytes());
        }
        bytes
    }

    /// A record that is whole and in order.
    pub fn read(bytes: &[u8]) -> Option<State> {
        if bytes.len() != STATE_SIZE || bytes[..2] != [0x57, 0x53] || bytes[3] != 0 {
            return None;
        }
        let gid = |at: usize| {
            let eight: [u8; 8] = bytes[at..at + 8].try_into().ok()?;
            Some(u64::from_le_bytes(eight)).filter(|gid| *gid <= i64::MAX as u64)
        };
        let (kind, b, t, e) = (bytes[2], gid(4)?, gid(12)?, gid(20)?);
        let fits = match kind {
            SETTLED => t == b && b <= e,
            SPAN => b < t && t <= e,
            PAIR => b < t && t == e,
            _ => false,
        };
        fits.then_some(State { kind, b, t, e })
    }

    /// Rules 11 to 14.
    pub fn accepts(&self, head: &Head) -> bool {
        let exact = head.p == self.b && (self.is_clean() || self.kind == PAIR && head.q == self.t);
        head.q > self.b && head.p <= self.b && head.q >= self.t && (!head.compared || exact)
    }

    pub fn during(&self, head: &Head) -> State {
        let pair = head.compared || self.is_clean();
        State {
            kind: if pair { PAIR } else { SPAN },
            b: self.b,
            t: head.q,
            e: head.q.max(self.e),
        }
    }

    pub fn done(&self, head: &Head) -> State {
        State::settled(head.q, head.q.max(self.e))
    }
}

/// The first list of places, in dictionary order, that leads to clean at the target.
pub fn plan(shelf: &[Head], state: State, target: u64) -> Option<Vec<usize>> {
    if state.is_clean_at(target) {
        return Some(Vec::new());
    }
    for (place, head) in shelf.iter().enumerate() {
        if state.accepts(head) {
            if let Some(rest) = plan(shelf, state.done(head), target) {
                return Some([vec![place], rest].concat());
            }
        }
    }
    None
}

#[cfg(test)]
mod tests {
    use super::*;

    fn pair(b: u64, t: u64) -> State {
        let kind = PAIR;
        State { kind, b, t, e: t }
    }

    /// Rows P1 to P12 of the night book.
    #[test]
    fn the_night_book() {
        let (clean, dirty) = (State::settled(7, 7), State::settled(4, 10));
        assert_eq!(clean.during(&Head::log(5, 9)), pair(7, 9));
        assert_eq!(clean.done(&Head::log(5, 9)), State::settled(9, 9));
        assert!(clean.accepts(&Head::log(5, 9)) && clean.accepts(&Head::compared(7, 9)));
        assert!(!clean.accepts(&Head::log(8, 9)) && !clean.accepts(&Head::log(3, 7)));
        assert!(!clean.accepts(&Head::compared(5, 9)) && !clean.accepts(&Head::compared(5, 7)));
        let span = |b, t, e| State {
            kind: SPAN,
            b,
            t,
            e,
        };
        assert_eq!(dirty.during(&Head::log(4, 8)), span(4, 8, 10));
        assert_eq!(dirty.done(&Head::log(4, 8)), State::settled(8, 10));
        assert_eq!(dirty.done(&Head::log(2, 10)), State::settled(10, 10));
        assert!(!pair(7, 9).accepts(&Head::log(5, 8)));
        assert!(!pair(7, 12).accepts(&Head::log(8, 10)));
        assert!(!pair(7, 9).accepts(&Head::compared(7, 10)));
        assert_eq!(pair(7, 9).during(&Head::log(7, 9)), span(7, 9, 9));
    }

    #[test]
    fn the_plans_of_the_night_book() {
        let shelf = [
            Head::log(0, 4),
            Head::compared(4, 9),
            Head::log(4, 6),
            Head::log(6, 9),
        ];
        let from = |b, e, target| plan(&shelf, State::settled(b, e), target);
        assert_eq!(from(0, 0, 9), Some(vec![0, 1]));
        assert_eq!(from(5, 5, 9), Some(vec![2, 3]));
        assert_eq!(from(0, 5, 9), Some(vec![0, 2, 3]));
        assert_eq!(from(0, 0, 5), None);
    }

    #[test]
    fn records_are_read_as_written() {
        let state = pair(7, 9);
        assert_eq!(State::read(&state.record()), Some(state));
        assert_eq!(State::read(&state.record()[..27]), None);
        assert_eq!(State::read(&State::settled(9, 7).record()), None);
    }
}
