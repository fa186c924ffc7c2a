//! How often each refusal of a path comes up, and where in its plan the link at fault stands; how many
//! cables of the plans go both ways, and how often a cut names the higher link: what `kinds` shows.

use crate::cuts::{cable_names, cut_list_of_numbers, name_of};
use crate::good::{breaking, broken, first_path, good};
use crate::paths::{OF_FIRST, OF_SECOND};
use crate::plan::{Plan, Refusal};
use crate::probe::plan_of_question;
use crate::random::two_way_cables;

/// Where one of several stands: it is the only one, the first, one in the middle, the last.
#[derive(Default)]
struct Stands([u64; 4]);

impl Stands {
    fn count(&mut self, at: usize, of: usize) {
        let class = match at {
            _ if of == 1 => 0,
            0 => 1,
            _ if at + 1 < of => 2,
            _ => 3,
        };
        self.0[class] += 1;
    }

    fn print(&self) {
        print!(" |");
        for count in self.0 {
            print!(" {:5}", count);
        }
    }
}

/// The refusals of one number.
#[derive(Default)]
pub struct Tally {
    all: u64,
    message: Stands,
    place: Stands,
    step: Stands,
    /// How many of them for each number of links of the path.
    lengths: [u64; 17],
    /// The plan breaks a rule that comes later.
    others_too: u64,
    /// The plan breaks this rule at another link too.
    elsewhere_too: u64,
    /// The vertex met twice: the one where the path begins, being the one before too or not; the
    /// one before; another one.
    vertex: [u64; 4],
}

/// The numbers of paths, in their order.
pub fn numbers() -> Vec<usize> {
    [OF_FIRST.to_vec(), OF_SECOND.to_vec()].concat()
}

impl Tally {
    /// Counts a plan with a refusal of a path.
    pub fn count(&mut self, plan: &Plan, refusal: Refusal) {
        let (m, number) = (refusal.place, refusal.number);
        let (place, step) = refusal.link.unwrap();
        let places = &plan.messages[m].places;
        let links = match &places[place].second {
            Some(second) if OF_SECOND.contains(&number) => second.clone(),
            _ => first_path(plan, m),
        };
        self.all += 1;
        self.message.count(m, plan.messages.len());
        self.place.count(place, places.len());
        self.step.count(step, links.len());
        self.lengths[links.len()] += 1;
        self.others_too += u64::from(broken(plan).len() > 1);
        self.elsewhere_too += u64::from(breaking(plan, number).len() > 1);
        if number == 15 || number == 18 {
            let again = plan.links[links[step]].to;
            let begins = again == plan.links[links[0]].from;
            let before = again == plan.links[links[step - 1]].from;
            self.vertex[match (begins, before) {
                (true, true) => 0,
                (true, false) => 1,
                (false, true) => 2,
                (false, false) => 3,
            }] += 1;
        }
    }
}

/// Prints them, number by number.
pub fn print(tallies: &[Tally]) {
    println!("refusals of paths, by where the link at fault stands");
    println!(
        "             | {:23} | {:23} | {:23} | of how many links",
        "message", "place", "step"
    );
    let classes = "  only first   mid  last";
    println!("number   all |{} |{} |{} | from, to, different", classes, classes, classes);
    for (number, tally) in numbers().iter().zip(tallies) {
        print!("{:6} {:5}", number, tally.all);
        for stands in [&tally.message, &tally.place, &tally.step] {
            stands.print();
        }
        let lengths: Vec<usize> = (1..17).filter(|length| tally.lengths[*length] > 0).collect();
        let (shortest, longest) = (lengths.first().unwrap_or(&0), lengths.last().unwrap_or(&0));
        println!(" | {} to {}, {}", shortest, longest, lengths.len());
    }
    for (number, tally) in numbers().iter().zip(tallies) {
        print!(
            "{}: with later rules broken too {}, with this one broken at other links too {}",
            number, tally.others_too, tally.elsewhere_too
        );
        if *number == 15 || *number == 18 {
            print!(
                "; met twice where the path begins, one link ago {}, more links ago {}, one link ago \
                 but not there {}, elsewhere {}",
                tally.vertex[0], tally.vertex[1], tally.vertex[2], tally.vertex[3]
            );
        }
        println!();
    }
}

/// The sorts of plans: how many of their cables go both ways.
const SORTS: [&str; 4] = ["none", "one to three", "more", "all"];

/// What the questions that take cuts are about, and what the lists of cuts name.
#[derive(Default)]
pub struct Cables {
    /// By question (their names as they come up) and by sort of the plan.
    plans: Vec<(&'static str, [u64; 4])>,
    /// Lists of cuts for good plans; those that name a higher link; that name both links of a cable.
    lists: u64,
    higher: u64,
    both: u64,
    /// The bad pair is one that names a higher link, by where it stands; and something else is bad too.
    refused: Stands,
    beside: u64,
    /// A higher link is named, and an earlier pair is bad.
    behind: u64,
}

impl Cables {
    /// Counts a question.
    pub fn count(&mut self, name: &'static str, line: &str) {
        let plan = match plan_of_question(line).filter(|plan| good(plan).is_ok()) {
            None => return,
            Some(plan) => plan,
        };
        let two_way = two_way_cables(&plan).len();
        let sort = match two_way {
            0 => 0,
            _ if two_way == cable_names(&plan).len() => 3,
            1..=3 => 1,
            _ => 2,
        };
        if self.plans.iter().all(|(other, _)| *other != name) {
            self.plans.push((name, [0; 4]));
        }
        self.plans.iter_mut().find(|(other, _)| *other == name).unwrap().1[sort] += 1;
        if name == "replay" {
            let numbers: Vec<u16> = line.split(' ').skip(2).map(|word| word.parse().unwrap()).collect();
            self.count_list(&plan, &numbers[1..1 + numbers[0] as usize]);
        }
    }

    fn count_list(&mut self, plan: &Plan, numbers: &[u16]) {
        self.lists += 1;
        let pairs: Vec<&[u16]> = numbers.chunks(2).collect();
        let is_higher = |pair: &&[u16]| {
            let link = *pair.last().unwrap() as usize;
            pair.len() == 2 && link < plan.links.len() && name_of(plan, link) != link
        };
        if !pairs.iter().any(is_higher) {
            return;
        }
        self.higher += 1;
        self.both += u64::from(pairs.iter().filter(|pair| is_higher(pair)).any(|higher| {
            let lower = name_of(plan, higher[1] as usize) as u16;
            pairs.iter().any(|pair| pair.len() == 2 && pair[1] == lower)
        }));
        let at = cut_list_of_numbers(plan, numbers).unwrap_err().place;
        if is_higher(&pairs[at]) {
            self.refused.count(at, pairs.len());
            // The list without the pairs that name higher links.
            let others: Vec<u16> =
                pairs.iter().filter(|pair| !is_higher(pair)).flat_map(|pair| pair.to_vec()).collect();
            self.beside += u64::from(cut_list_of_numbers(plan, &others).is_err());
        } else {
            self.behind += 1;
        }
    }

    pub fn print(&self) {
        print!("good plans by how many of their cables go both ways:");
        SORTS.iter().for_each(|sort| print!(" {:>12}", sort));
        println!();
        for (name, numbers) in &self.plans {
            print!("{:52}", name);
            numbers.iter().for_each(|number| print!(" {:12}", number));
            println!();
        }
        println!(
            "lists of cuts {}, with a higher link {}, of these with both links of a cable {}",
            self.lists, self.higher, self.both
        );
        let [only, first, middle, last] = self.refused.0;
        println!(
            "  refused for a higher link as the only pair {}, the first {}, a middle one {}, the last {}; \
             beside other faults {}; refused for an earlier pair {}",
            only, first, middle, last, self.beside, self.behind
        );
    }
}
