//! Document 01, "The plan and its two forms": the fields, the file, the row,
//! and refusals 1 to 4.

/// "A refusal gives its number and place." Document 02, [1]: that of a path gives its message
/// as its place, and "with the message come the place and the step of the first link at fault".
#[derive(Clone, Copy, PartialEq, Debug)]
pub struct Refusal {
    pub number: usize,
    pub place: usize,
    /// The place and the step, if it is one of a path.
    pub link: Option<(usize, usize)>,
}

pub fn refusal(number: usize, place: usize) -> Refusal {
    Refusal { number, place, link: None }
}

/// The refusal of a path: its message, and the place and the step of a link.
pub fn refusal_of_path(number: usize, message: usize, place: usize, step: usize) -> Refusal {
    Refusal { number, place: message, link: Some((place, step)) }
}

/// "A refusal prints `refused N place P` alone." [1]: "the printed refusal ends with both", the
/// place and the step.
impl std::fmt::Display for Refusal {
    fn fmt(&self, f: &mut std::fmt::Formatter) -> std::fmt::Result {
        write!(f, "refused {} place {}", self.number, self.place)?;
        match self.link {
            None => Ok(()),
            Some((place, step)) => write!(f, " {} {}", place, step),
        }
    }
}

/// A directed link.
#[derive(Clone, Copy, PartialEq, Debug)]
pub struct Link {
    pub from: usize,
    pub to: usize,
}

/// One link of a first path ("places", from 0), its slot, and the second path
/// from that place if there is one.
#[derive(Clone, PartialEq, Debug)]
pub struct Place {
    pub link: usize,
    pub slot: usize,
    pub second: Option<Vec<usize>>,
}

#[derive(Clone, PartialEq, Debug)]
pub struct Message {
    pub places: Vec<Place>,
}

/// "A plan has V switches and hosts ("vertices", 1 to 64), E directed links
/// (1 to 64), M messages (1 to 32) and a timeout t (1 to 64)."
/// E is `links.len()` and M is `messages.len()`.
#[derive(Clone, PartialEq, Debug)]
pub struct Plan {
    pub vertices: usize,
    pub timeout: usize,
    pub links: Vec<Link>,
    pub messages: Vec<Message>,
}

/// The only edition there is: "edition, 4 bits, always 1".
const EDITION: usize = 1;

// The widths of the fields, in bits.
const EDITION_BITS: usize = 4;
const VERTICES_BITS: usize = 6;
const LINKS_BITS: usize = 6;
const MESSAGES_BITS: usize = 5;
const TIMEOUT_BITS: usize = 6;
const END_BITS: usize = 6;
const LENGTH_BITS: usize = 4;
const LINK_BITS: usize = 6;
const SLOT_BITS: usize = 6;
const FLAG_BITS: usize = 1;

/// Where fields come from: the bits of a file, or the numbers of a row.
trait Fields {
    /// The next field, or refusal 2 or 3 there.
    fn field(&mut self, bits: usize) -> Result<usize, Refusal>;
    /// After the last field: refusal 4, or nothing.
    fn end(&self) -> Result<(), Refusal>;
}

/// The file "is bit-packed, most significant bit first".
struct FileFields<'a> {
    file: &'a [u8],
    at: usize,
}

fn bit(file: &[u8], at: usize) -> usize {
    (file[at / 8] >> (7 - at % 8)) as usize & 1
}

impl Fields for FileFields<'_> {
    fn field(&mut self, bits: usize) -> Result<usize, Refusal> {
        // 2: "input ends inside or before a field"; "where that field starts, in bits".
        if self.at + bits > 8 * self.file.len() {
            return Err(refusal(2, self.at));
        }
        let mut value = 0;
        for at in self.at..self.at + bits {
            value = 2 * value + bit(self.file, at);
        }
        self.at += bits;
        Ok(value)
    }

    fn end(&self) -> Result<(), Refusal> {
        // "zero bits up to the next whole byte, and nothing after".
        // 4: "a fill bit is 1, or more follows"; "end of the last field, in bits".
        let whole_bytes = (self.at + 7) / 8;
        let more_follows = self.file.len() > whole_bytes;
        let a_fill_bit_is_1 = (self.at..8 * whole_bytes).any(|at| bit(self.file, at) == 1);
        if a_fill_bit_is_1 || more_follows {
            return Err(refusal(4, self.at));
        }
        Ok(())
    }
}

/// "The same fields in the same order, one 16-bit number a field and no fill,
/// make the plan's row".
struct RowFields<'a> {
    row: &'a [u16],
    at: usize,
}

impl Fields for RowFields<'_> {
    fn field(&mut self, bits: usize) -> Result<usize, Refusal> {
        // 2: "input ends inside or before a field"; "(rows: numbers)".
        if self.at >= self.row.len() {
            return Err(refusal(2, self.at));
        }
        let value = self.row[self.at] as usize;
        // 3: "rows only: a number after the first too large for its field"; "its index".
        if self.at > 0 && value >= 1 << bits {
            return Err(refusal(3, self.at));
        }
        self.at += 1;
        Ok(value)
    }

    fn end(&self) -> Result<(), Refusal> {
        // 4: "more follows"; "end of the last field (rows: numbers)".
        if self.row.len() > self.at {
            return Err(refusal(4, self.at));
        }
        Ok(())
    }
}

/// "fields in this order: edition [...]; V - 1 [...]; E - 1 [...]; M - 1 [...]; t - 1 [...]".
fn plan_of_fields(fields: &mut dyn Fields) -> Result<Plan, Refusal> {
    // 1: "first field present and not 1", place 0.
    if fields.field(EDITION_BITS)? != EDITION {
        return Err(refusal(1, 0));
    }
    let vertices = fields.field(VERTICES_BITS)? + 1;
    let number_of_links = fields.field(LINKS_BITS)? + 1;
    let number_of_messages = fields.field(MESSAGES_BITS)? + 1;
    let timeout = fields.field(TIMEOUT_BITS)? + 1;

    // "for each link: from, 6 bits; to, 6 bits".
    let mut links = Vec::new();
    for _ in 0..number_of_links {
        let from = fields.field(END_BITS)?;
        let to = fields.field(END_BITS)?;
        links.push(Link { from, to });
    }

    // "for each message: number of links of its first path less one, 4 bits; then
    // for each of these links [...]: link, 6 bits; slot, 6 bits; a 1-bit flag; and,
    // if the flag is 1, the second path from that place: number of links less one,
    // 4 bits, and each link, 6 bits".
    let mut messages = Vec::new();
    for _ in 0..number_of_messages {
        let number_of_places = fields.field(LENGTH_BITS)? + 1;
        let mut places = Vec::new();
        for _ in 0..number_of_places {
            let link = fields.field(LINK_BITS)?;
            let slot = fields.field(SLOT_BITS)?;
            let flag = fields.field(FLAG_BITS)?;
            let mut second = None;
            if flag == 1 {
                let length = fields.field(LENGTH_BITS)? + 1;
                let mut path = Vec::new();
                for _ in 0..length {
                    path.push(fields.field(LINK_BITS)?);
                }
                second = Some(path);
            }
            places.push(Place { link, slot, second });
        }
        messages.push(Message { places });
    }

    fields.end()?;
    Ok(Plan { vertices, timeout, links, messages })
}

/// The plan in a file, good or not; refusals 1, 2 and 4.
pub fn plan_of_file(file: &[u8]) -> Result<Plan, Refusal> {
    plan_of_fields(&mut FileFields { file, at: 0 })
}

/// The plan in a row, good or not; refusals 1 to 4.
pub fn plan_of_row(row: &[u16]) -> Result<Plan, Refusal> {
    plan_of_fields(&mut RowFields { row, at: 0 })
}

/// The fields of a plan in their order: each as its width in bits and its value.
pub fn fields_of(plan: &Plan) -> Vec<(usize, usize)> {
    let mut fields = vec![
        (EDITION_BITS, EDITION),
        (VERTICES_BITS, plan.vertices - 1),
        (LINKS_BITS, plan.links.len() - 1),
        (MESSAGES_BITS, plan.messages.len() - 1),
        (TIMEOUT_BITS, plan.timeout - 1),
    ];
    for link in &plan.links {
        fields.push((END_BITS, link.from));
        fields.push((END_BITS, link.to));
    }
    for message in &plan.messages {
        fields.push((LENGTH_BITS, message.places.len() - 1));
        for place in &message.places {
            fields.push((LINK_BITS, place.link));
            fields.push((SLOT_BITS, place.slot));
            match &place.second {
                None => fields.push((FLAG_BITS, 0)),
                Some(second) => {
                    fields.push((FLAG_BITS, 1));
                    fields.push((LENGTH_BITS, second.len() - 1));
                    for link in second {
                        fields.push((LINK_BITS, *link));
                    }
                }
            }
        }
    }
    fields
}

/// The row of a plan: "one 16-bit number a field and no fill".
pub fn row_of(plan: &Plan) -> Vec<u16> {
    fields_of(plan).iter().map(|(_, value)| *value as u16).collect()
}

/// The file of a plan: "bit-packed, most significant bit first", and
/// "zero bits up to the next whole byte, and nothing after".
pub fn file_of(plan: &Plan) -> Vec<u8> {
    let mut bits = Vec::new();
    for (width, value) in fields_of(plan) {
        for place in (0..width).rev() {
            bits.push((value >> place & 1) as u8);
        }
    }
    while bits.len() % 8 != 0 {
        bits.push(0);
    }
    bits.chunks(8).map(|byte| byte.iter().fold(0, |value, bit| 2 * value + bit)).collect()
}
