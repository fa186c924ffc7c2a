//! What a list can lose, tried on random plans and cut lists: "A list loses only messages
//! that it both touches and strips", and the bounds T, C, H and L that follow from it.
//! Beside them wrong variants, which the same search has to find false.
//!
//! A pair (s, e) touches a place if e is its link and s is at most its slot, and a message
//! if it touches a place of it. "A place is robust if it has a second path and its slot
//! plus D is at most t, else fragile. A pair (s, e) strips a message if it touches a
//! fragile place of it, or if e lies on the second path of one of its robust places (in
//! any slot)." Document 02, [3]: either way of the cable that a pair names counts as e.

use crate::cases::{plan_and_cuts, plan_and_few_cuts};
use crate::cuts::{pair_cuts, Pair};
use crate::cycle::{at_target, one_slot, start};
use crate::plan::{Place, Plan};
use crate::slack::{a, b};

/// How the promise is read: right, or with one thing changed.
#[derive(Clone, Copy, PartialEq, Debug)]
pub enum Reading {
    Right,

    // Wrong ones.
    /// A place is robust from slack -1 on.
    SlackOneBelow,
    /// D without a(e).
    NoTable,
    /// D without m's own entries in a(e).
    NotItsOwnEntries,
    /// D without b(m, e).
    NoLowerMessages,
    /// A pair touches a place only before its slot.
    TouchesBefore,
    /// e on the second path of a robust place strips in the slot of the place alone.
    StripsInTheSlot,
    /// e on the second path of a robust place strips in no slot after that of the place.
    StripsByTheSlot,
    /// Only the first link of a robust place's second path strips.
    StripsAtItsBegin,
    /// Second paths of fragile places count, and those of robust places do not.
    SecondOfFragile,
    /// One pair both touches and strips.
    OnePairDoesBoth,
    /// A pair touches and strips by the link that it names alone.
    NamedLinkAlone,
    /// A pair touches by the link that it names alone.
    TouchesByName,
    /// A pair strips, by second paths of robust places, by the link that it names alone.
    StripsByName,
    /// L counts the messages at their targets.
    ThoseAtTargets,
    /// T, C and H count no pairs to come.
    NoneToCome,
    /// H counts the touches of the pairs to come, not their strips.
    TouchesToComeAlone,
    /// wY counts the fragile places alone.
    FragileToComeAlone,
    /// T, C and H take the messages that are away one time later.
    AwayOneLater,

    // These are not wrong. The first four ask for less than the right reading.
    /// A place is robust from slack 1 on.
    SlackOneAbove,
    /// Second paths of all places count.
    SecondOfAll,
    /// A pair touches a fragile place in any slot.
    FragileInAnySlot,
    /// Messages at their targets count as if they were away.
    AllAway,
    /// wY is how many messages the pair strips: this asks for more, and holds as well.
    StrippedOnce,
}

/// The wrong ones, each with a number of cases (plans, with their lists) within which it
/// is found false.
pub const WRONG: [(Reading, u64); 18] = [
    (Reading::SlackOneBelow, 200),
    (Reading::NoTable, 500),
    (Reading::NotItsOwnEntries, 8000),
    (Reading::NoLowerMessages, 5000),
    (Reading::TouchesBefore, 20),
    (Reading::StripsInTheSlot, 50),
    (Reading::StripsByTheSlot, 50),
    (Reading::StripsAtItsBegin, 50),
    (Reading::SecondOfFragile, 50),
    (Reading::OnePairDoesBoth, 50),
    (Reading::NamedLinkAlone, 50),
    (Reading::TouchesByName, 50),
    (Reading::StripsByName, 50),
    (Reading::ThoseAtTargets, 20),
    (Reading::NoneToCome, 20),
    (Reading::TouchesToComeAlone, 20),
    (Reading::FragileToComeAlone, 20),
    (Reading::AwayOneLater, 50),
];

pub const NOT_WRONG: [Reading; 5] = [
    Reading::SlackOneAbove,
    Reading::SecondOfAll,
    Reading::FragileInAnySlot,
    Reading::AllAway,
    Reading::StrippedOnce,
];

pub const BOUNDS: [&str; 4] = ["T", "C", "H", "L"];

#[derive(Default)]
pub struct Counts {
    pub plans: u64,
    pub lists: u64,
    pub robust_places: u64,
    /// ... with a link of the second path on a second path of another message.
    pub shared: u64,
    /// Messages with at least two robust places.
    pub several_robust: u64,
    /// Messages of lists: those touched, stripped, both, and lost.
    pub touched: u64,
    pub stripped: u64,
    pub both: u64,
    pub lost: u64,
    /// Lost though no fragile place is touched: a second path was cut.
    pub lost_by_second: u64,
    /// ... and none of its links in or before the slot of its place.
    pub lost_by_late_cut: u64,
    /// How often each bound was tried, and met exactly where something is lost.
    pub tried: [u64; 4],
    pub met: [u64; 4],
}

/// A plan with what is robust in it.
struct Judge<'a> {
    plan: &'a Plan,
    reading: Reading,
    /// By message and place.
    robust: Vec<Vec<bool>>,
}

impl Judge<'_> {
    fn new(plan: &Plan, reading: Reading) -> Judge<'_> {
        let robust = (0..plan.messages.len())
            .map(|m| plan.messages[m].places.iter().map(|p| is_robust(plan, m, p, reading)).collect())
            .collect();
        Judge { plan, reading, robust }
    }

    /// The places of a message, each with whether it is robust.
    fn places(&self, m: usize) -> impl Iterator<Item = (&Place, bool)> {
        self.plan.messages[m].places.iter().zip(self.robust[m].iter().copied())
    }

    /// Whether the pair's cable has a way that is this link.
    fn cuts(&self, pair: Pair, link: usize) -> bool {
        match self.reading {
            Reading::NamedLinkAlone => pair.1 == link,
            _ => pair_cuts(self.plan, pair, link),
        }
    }

    fn touches_place(&self, place: &Place, pair: Pair) -> bool {
        match self.reading {
            Reading::TouchesBefore => self.cuts(pair, place.link) && pair.0 < place.slot,
            Reading::TouchesByName => pair.1 == place.link && pair.0 <= place.slot,
            _ => self.cuts(pair, place.link) && pair.0 <= place.slot,
        }
    }

    fn touches(&self, m: usize, pair: Pair) -> bool {
        self.places(m).any(|(place, _)| self.touches_place(place, pair))
    }

    /// How many fragile places of a message a pair touches.
    fn fragile_touched(&self, m: usize, pair: Pair) -> usize {
        let fragile = self.places(m).filter(|(_, robust)| !robust);
        match self.reading {
            Reading::FragileInAnySlot => fragile.filter(|(place, _)| self.cuts(pair, place.link)).count(),
            _ => fragile.filter(|(place, _)| self.touches_place(place, pair)).count(),
        }
    }

    /// "if e lies on the second path of one of its robust places (in any slot)".
    fn on_second(&self, m: usize, pair: Pair) -> bool {
        self.places(m).any(|(place, robust)| match &place.second {
            None => false,
            Some(second) => {
                let lies_on = second.iter().any(|link| self.cuts(pair, *link));
                match self.reading {
                    Reading::StripsInTheSlot => robust && lies_on && pair.0 == place.slot,
                    Reading::StripsByTheSlot => robust && lies_on && pair.0 <= place.slot,
                    Reading::StripsAtItsBegin => robust && self.cuts(pair, second[0]),
                    Reading::StripsByName => robust && second.contains(&pair.1),
                    Reading::SecondOfFragile => !robust && lies_on,
                    Reading::SecondOfAll => lies_on,
                    _ => robust && lies_on,
                }
            }
        })
    }

    fn strips(&self, m: usize, pair: Pair) -> bool {
        self.fragile_touched(m, pair) > 0 || self.on_second(m, pair)
    }

    /// "wX(s, e): how many messages the pair touches".
    fn weight_x(&self, pair: Pair) -> usize {
        (0..self.plan.messages.len()).filter(|m| self.touches(*m, pair)).count()
    }

    /// "wY(s, e): the sum over messages of how many fragile places it touches, and one if e
    /// is on the second path of a robust place".
    fn weight_y(&self, pair: Pair) -> usize {
        let messages = 0..self.plan.messages.len();
        let weights = messages.map(|m| match self.reading {
            Reading::FragileToComeAlone => self.fragile_touched(m, pair),
            Reading::StrippedOnce => usize::from(self.strips(m, pair)),
            _ => self.fragile_touched(m, pair) + usize::from(self.on_second(m, pair)),
        });
        weights.sum()
    }

    /// "X, Y: the messages that the picked pairs touch, strip."
    fn x(&self, picked: &[Pair]) -> Vec<bool> {
        let messages = 0..self.plan.messages.len();
        messages.map(|m| picked.iter().any(|pair| self.touches(m, *pair))).collect()
    }

    fn y(&self, picked: &[Pair]) -> Vec<bool> {
        let messages = 0..self.plan.messages.len();
        messages.map(|m| picked.iter().any(|pair| self.strips(m, *pair))).collect()
    }

    /// A list and what it may lose, by the promise and by the four bounds.
    fn check(&self, list: &[Pair], counts: &mut Counts) -> Result<(), String> {
        let need = self.check_whole(list, counts)?;
        for number in 0..=list.len() {
            self.check_split(list, number, need, counts)?;
        }
        Ok(())
    }

    /// The promise, and L at every time; how many messages are lost.
    fn check_whole(&self, list: &[Pair], counts: &mut Counts) -> Result<usize, String> {
        counts.lists += 1;
        let timeout = self.plan.timeout;
        let (x, y) = (self.x(list), self.y(list));
        let away = away_until(self.plan, list, timeout);
        let lost = &away[timeout];
        for m in 0..self.plan.messages.len() {
            let one_does_both =
                list.iter().any(|pair| self.touches(m, *pair) && self.strips(m, *pair));
            let both = match self.reading {
                Reading::OnePairDoesBoth => one_does_both,
                _ => x[m] && y[m],
            };
            if lost[m] && !both {
                let text = format!("message {} is lost, touched {}, stripped {}", m, x[m], y[m]);
                return Err(text);
            }
            self.count(list, m, x[m], y[m], lost[m], counts);
        }
        let need = count(lost);
        for s in 0..=timeout {
            // L: "need <= |X and Y and away|".
            let counted = match self.reading {
                Reading::ThoseAtTargets => away[s].iter().map(|away| !away).collect(),
                _ => self.counted_as_away(&away[s]),
            };
            self.bound(3, need, count(&both(&both(&x, &y), &counted)), s, counts)?;
        }
        Ok(need)
    }

    /// T, C and H for a list of which the first pairs are picked and the others are to
    /// come, at every time s up to the slot of the first pair to come.
    fn check_split(
        &self,
        list: &[Pair],
        number: usize,
        need: usize,
        counts: &mut Counts,
    ) -> Result<(), String> {
        let (picked, to_come) = list.split_at(number);
        let last = to_come.first().map_or(self.plan.timeout, |pair| pair.0);
        let (x, y) = (self.x(picked), self.y(picked));
        let mut sum_x: usize = to_come.iter().map(|pair| self.weight_x(*pair)).sum();
        let mut sum_y: usize = to_come.iter().map(|pair| self.weight_y(*pair)).sum();
        if self.reading == Reading::NoneToCome {
            (sum_x, sum_y) = (0, 0);
        }
        let later = usize::from(self.reading == Reading::AwayOneLater && last < self.plan.timeout);
        let away = away_until(self.plan, picked, last + later);
        for s in 0..=last {
            let counted = self.counted_as_away(&away[s + later]);
            let (x, y) = (count(&both(&x, &counted)), count(&both(&y, &counted)));
            // T: "need <= |X and away| + sum of wX of pairs to come".
            self.bound(0, need, x + sum_x, s, counts)?;
            // C: "need <= |Y and away| + sum of wY".
            self.bound(1, need, y + sum_y, s, counts)?;
            // H: "2 x need <= |X and away| + |Y and away| + sum of (wX + wY)".
            let sum = match self.reading {
                Reading::TouchesToComeAlone => sum_x,
                _ => sum_x + sum_y,
            };
            self.bound(2, 2 * need, x + y + sum, s, counts)?;
        }
        Ok(())
    }

    fn counted_as_away(&self, away: &[bool]) -> Vec<bool> {
        match self.reading {
            Reading::AllAway => vec![true; away.len()],
            _ => away.to_vec(),
        }
    }

    fn bound(
        &self,
        which: usize,
        need: usize,
        most: usize,
        s: usize,
        counts: &mut Counts,
    ) -> Result<(), String> {
        counts.tried[which] += 1;
        counts.met[which] += u64::from(need > 0 && need == most);
        if need > most {
            return Err(format!("{} at time {}: {} is above {}", BOUNDS[which], s, need, most));
        }
        Ok(())
    }

    fn count_plan(&self, counts: &mut Counts) {
        counts.plans += 1;
        for m in 0..self.plan.messages.len() {
            counts.several_robust += u64::from(count(&self.robust[m]) > 1);
            for (place, _) in self.places(m).filter(|(_, robust)| *robust) {
                counts.robust_places += 1;
                let mut others = (0..self.plan.messages.len()).filter(|other| *other != m);
                let second = place.second.as_ref().unwrap();
                counts.shared += u64::from(others.any(|other| {
                    let paths = self.places(other).filter_map(|(place, _)| place.second.as_ref());
                    paths.flatten().any(|link| second.contains(link))
                }));
            }
        }
    }

    fn count(&self, list: &[Pair], m: usize, x: bool, y: bool, lost: bool, counts: &mut Counts) {
        counts.touched += u64::from(x);
        counts.stripped += u64::from(y);
        counts.both += u64::from(x && y);
        counts.lost += u64::from(lost);
        if lost && list.iter().all(|pair| self.fragile_touched(m, *pair) == 0) {
            counts.lost_by_second += 1;
            let late = self.places(m).filter(|(_, robust)| *robust).all(|(place, _)| {
                let second = place.second.as_ref().unwrap();
                let lies_on = |pair: &Pair| second.iter().any(|link| self.cuts(*pair, *link));
                list.iter().all(|pair| !lies_on(pair) || pair.0 > place.slot)
            });
            counts.lost_by_late_cut += u64::from(late);
        }
    }
}

/// "A place is robust if it has a second path and its slot plus D is at most t".
fn is_robust(plan: &Plan, m: usize, place: &Place, reading: Reading) -> bool {
    let second = match &place.second {
        None => return false,
        Some(second) => second,
    };
    // "D is the sum over that path's links e of 1 + a(e) + b(m, e)."
    let own = |e: usize| plan.messages[m].places.iter().filter(|place| place.link == e).count();
    let d: usize = second
        .iter()
        .map(|e| match reading {
            Reading::NoTable => 1 + b(plan, m, *e),
            Reading::NotItsOwnEntries => 1 + a(plan, *e) - own(*e) + b(plan, m, *e),
            Reading::NoLowerMessages => 1 + a(plan, *e),
            _ => 1 + a(plan, *e) + b(plan, m, *e),
        })
        .sum();
    match reading {
        Reading::SlackOneBelow => place.slot + d <= plan.timeout + 1,
        Reading::SlackOneAbove => place.slot + d < plan.timeout,
        _ => place.slot + d <= plan.timeout,
    }
}

/// "away: those not at their targets at time s", for each time from 0 to the last one.
fn away_until(plan: &Plan, cuts: &[Pair], last: usize) -> Vec<Vec<bool>> {
    let mut positions = start(plan);
    let mut away = Vec::new();
    for time in 0..=last {
        away.push((0..positions.len()).map(|m| !at_target(plan, m, positions[m])).collect());
        if time < last {
            positions = one_slot(plan, cuts, time, &positions).0;
        }
    }
    away
}

fn both(one: &[bool], other: &[bool]) -> Vec<bool> {
    one.iter().zip(other).map(|(one, other)| *one && *other).collect()
}

fn count(set: &[bool]) -> usize {
    set.iter().filter(|member| **member).count()
}

/// wX and wY of a pair.
pub fn weights(plan: &Plan, pair: Pair) -> (usize, usize) {
    let judge = Judge::new(plan, Reading::Right);
    (judge.weight_x(pair), judge.weight_y(pair))
}

/// How many cut lists are tried on each plan.
pub const LISTS: usize = 12;

/// Tries one case of a seed: its plan with its lists.
fn check_case(seed: u64, case: u64, reading: Reading, counts: &mut Counts) -> Result<(), String> {
    let (plan, lists) = plan_and_few_cuts(seed, case, LISTS);
    let judge = Judge::new(&plan, reading);
    judge.count_plan(counts);
    for list in &lists {
        judge.check(list, counts).map_err(|text| told(&text, seed, case, list, &plan))?;
    }
    Ok(())
}

fn told(text: &str, seed: u64, case: u64, list: &[Pair], plan: &Plan) -> String {
    format!("seed {} case {}: {}\n{:?}\n{:?}", seed, case, text, list, plan)
}

/// Tries all cases of a seed, and the promise and L also on the cases of the other
/// promises: plans of every size, lists of any length. Gives the counts of each.
pub fn losses(seed: u64, number: u64) -> Result<(Counts, Counts), String> {
    let (mut few, mut any) = (Counts::default(), Counts::default());
    for case in 0..number {
        check_case(seed, case, Reading::Right, &mut few)?;
        let (plan, list) = plan_and_cuts(seed, case);
        let judge = Judge::new(&plan, Reading::Right);
        judge.count_plan(&mut any);
        judge.check_whole(&list, &mut any).map_err(|text| told(&text, seed, case, &list, &plan))?;
    }
    Ok((few, any))
}

/// The first case of a seed, below this number, in which a reading is false.
pub fn found_false(seed: u64, number: u64, reading: Reading) -> Option<u64> {
    let mut counts = Counts::default();
    (0..number).find(|case| check_case(seed, *case, reading, &mut counts).is_err())
}
