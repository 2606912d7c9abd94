//! The reader: one walk over the bytes gives form, counts and masks together; the refusals are then
//! given in their order, all of 5 before 6 before 7.

use crate::answers::*;
use crate::codes::*;
use crate::typing::{Declared, Masks, Sides};

pub fn accept(bytes: &[u8]) -> Verdict {
    match read(bytes) {
        Ok(book) => Verdict::Accepted(book.shape),
        Err(refusal) => Verdict::Refused(refusal),
    }
}

/// An accepted book.
pub struct Book<'a> {
    pub bytes: &'a [u8],
    pub shape: Shape,
    bodies: [Body; MOST_TABLES + 1],
    /// Whether the main policy names a table that is not populated.
    pub names_unpopulated: bool,
}

impl Book<'_> {
    /// Where the body of entry `entry` begins; 0 is the main policy.
    pub fn body_start(&self, entry: usize) -> usize {
        self.bodies[entry].start
    }

    pub fn is_populated(&self, entry: usize) -> bool {
        self.bodies[entry].is_populated()
    }
}

/// One entry of the contents, with the place of its body.
#[derive(Clone, Copy, Default)]
struct Body {
    start: usize,
    end: usize,
    declared: Declared,
}

impl Body {
    fn is_populated(&self) -> bool {
        self.start < self.end
    }
}

pub fn read(bytes: &[u8]) -> Result<Book<'_>, Refusal> {
    if bytes.len() < LEAST_BOOK || bytes.len() > MOST_BOOK {
        return Err(Refusal::plain(BOOK_SIZE));
    }
    let fields = bytes[0] as usize;
    let tables = bytes[1] as usize;
    if !(1..=MOST_FIELDS).contains(&fields) || tables > MOST_TABLES {
        return Err(Refusal::plain(HEADER));
    }
    let bodies = read_contents(bytes, tables).ok_or(Refusal::plain(LENGTHS))?;
    let all_fields = all_fields(fields);
    if !bodies[..=tables].iter().all(|body| body.declared.is_allowed(all_fields)) {
        return Err(Refusal::plain(ENTRY_MASKS));
    }
    let mut findings = Findings::default();
    for entry in 0..=tables {
        if entry == 0 || bodies[entry].is_populated() {
            findings.body[entry] = read_body(bytes, &bodies, tables, all_fields, entry, &mut findings)?;
        }
    }
    let (parts, concurrency) = findings.size_of_main(tables);
    if parts > MOST_PARTS || concurrency > MOST_CONCURRENCY {
        return Err(Refusal::plain(TOO_LARGE));
    }
    if let Some(place) = findings.place_of_wrong_typing(&bodies[..=tables]) {
        return Err(Refusal::at(TYPING, place));
    }
    let names_unpopulated = (1..=tables).any(|x| findings.uses[x] > 0 && !bodies[x].is_populated());
    let shape = Shape { fields, tables, parts, concurrency };
    Ok(Book { bytes, shape, bodies, names_unpopulated })
}

/// The mask of the fields 0 to k - 1.
pub fn all_fields(fields: usize) -> u8 {
    (0xFF_u16 >> (MOST_FIELDS - fields)) as u8
}

/// The entries with the places of their bodies, if they add up to the book.
fn read_contents(bytes: &[u8], tables: usize) -> Option<[Body; MOST_TABLES + 1]> {
    let mut bodies = [Body::default(); MOST_TABLES + 1];
    let mut start = 2 + 4 * (tables + 1);
    let entries = bytes.get(2..start)?;
    for (body, entry) in bodies.iter_mut().zip(entries.chunks_exact(4)) {
        let end = start + two_bytes(entry, 0) as usize;
        let declared = Declared { readable: entry[2], writable: entry[3] };
        *body = Body { start, end, declared };
        start = end;
    }
    (start == bytes.len()).then_some(bodies)
}

/// What the walk over one body found.
#[derive(Clone, Copy, Default)]
struct BodyFindings {
    parts: usize,
    concurrency: usize,
    masks: Masks,
}

/// What the walk over all bodies found.
#[derive(Default)]
struct Findings {
    body: [BodyFindings; MOST_TABLES + 1],
    /// How often the main body uses each table.
    uses: [usize; MOST_TABLES + 1],
    /// The most concurrent parts above any use of each table.
    concurrency_above_use: [usize; MOST_TABLES + 1],
    /// The first concurrent part in book order that is not right.
    first_not_right: Option<usize>,
}

impl Findings {
    /// n and D of the main policy, each populated body counted under each use of it.
    fn size_of_main(&self, tables: usize) -> (usize, usize) {
        let mut parts = self.body[0].parts;
        let mut concurrency = self.body[0].concurrency;
        for x in 1..=tables {
            if self.uses[x] > 0 {
                parts += self.uses[x] * self.body[x].parts;
                concurrency = concurrency.max(self.concurrency_above_use[x] + self.body[x].concurrency);
            }
        }
        (parts, concurrency)
    }

    /// The place of refusal 7: every concurrent part comes before any fit.
    fn place_of_wrong_typing(&self, bodies: &[Body]) -> Option<usize> {
        if self.first_not_right.is_some() {
            return self.first_not_right;
        }
        let found = bodies.iter().zip(&self.body);
        for (body, findings) in found {
            if body.is_populated() && !body.declared.fits(findings.masks) {
                return Some(body.start);
            }
        }
        None
    }
}

fn read_body(
    bytes: &[u8],
    bodies: &[Body; MOST_TABLES + 1],
    tables: usize,
    all_fields: u8,
    entry: usize,
    findings: &mut Findings,
) -> Result<BodyFindings, Refusal> {
    let Body { start, end, .. } = bodies[entry];
    let found = BodyFindings::default();
    let mut reader =
        BodyReader { bytes: &bytes[..end], at: start, bodies, tables, all_fields, entry, findings, found };
    let masks = reader.part(1, 0, Allowed::AnyPolicy)?;
    if reader.at < end {
        return Err(Refusal::at(FORM, reader.at));
    }
    Ok(BodyFindings { masks, ..reader.found })
}

/// Which parts may stand at a place.
#[derive(Clone, Copy, PartialEq, Eq)]
enum Allowed {
    AnyPolicy,
    OnlyPredicates,
}

struct BodyReader<'a> {
    /// The book up to the end of this body.
    bytes: &'a [u8],
    at: usize,
    bodies: &'a [Body; MOST_TABLES + 1],
    tables: usize,
    all_fields: u8,
    entry: usize,
    findings: &'a mut Findings,
    found: BodyFindings,
}

impl BodyReader<'_> {
    /// Reads one part at `depth`, with so many concurrent parts above it, and gives its masks.
    fn part(&mut self, depth: usize, concurrent_above: usize, allowed: Allowed) -> Result<Masks, Refusal> {
        let place = self.at;
        let code = self.byte()?;
        if depth > MOST_DEPTH {
            return Err(Refusal::at(FORM, place));
        }
        self.found.parts += 1;
        let any_policy = allowed == Allowed::AnyPolicy;
        match code {
            ID | DROP => Ok(Masks::NONE),
            TEST => Ok(Masks::test_of(self.field_and_value()?)),
            SET if any_policy => Ok(Masks::set_of(self.field_and_value()?)),
            NOT => self.part(depth + 1, concurrent_above, Allowed::OnlyPredicates),
            SUM | SEQUENCE => {
                let p = self.part(depth + 1, concurrent_above, allowed)?;
                let q = self.part(depth + 1, concurrent_above, allowed)?;
                Ok(p.joined(q))
            }
            BESIDE if any_policy => self.beside(place, depth, concurrent_above + 1),
            TABLE if any_policy && self.entry == 0 => self.table_use(concurrent_above),
            _ => Err(Refusal::at(FORM, place)),
        }
    }

    fn beside(&mut self, place: usize, depth: usize, concurrent: usize) -> Result<Masks, Refusal> {
        self.found.concurrency = self.found.concurrency.max(concurrent);
        let sides = Sides { left: self.mask()?, right: self.mask()? };
        let p = self.part(depth + 1, concurrent, Allowed::AnyPolicy)?;
        let q = self.part(depth + 1, concurrent, Allowed::AnyPolicy)?;
        if !sides.are_right(p, q) {
            // A part inside this one is judged before it but stands after it in the book.
            let earlier = self.findings.first_not_right.unwrap_or(place);
            self.findings.first_not_right = Some(earlier.min(place));
        }
        Ok(sides.masks(p, q))
    }

    fn table_use(&mut self, concurrent_above: usize) -> Result<Masks, Refusal> {
        let place = self.at;
        let x = self.byte()? as usize;
        if !(1..=self.tables).contains(&x) {
            return Err(Refusal::at(FORM, place));
        }
        self.findings.uses[x] += 1;
        let above = &mut self.findings.concurrency_above_use[x];
        *above = (*above).max(concurrent_above);
        Ok(self.bodies[x].declared.masks_of_use())
    }

    fn field_and_value(&mut self) -> Result<u8, Refusal> {
        let place = self.at;
        let field = self.byte()?;
        if field >= MOST_FIELDS as u8 || self.all_fields & (1 << field) == 0 {
            return Err(Refusal::at(FORM, place));
        }
        self.byte()?;
        self.byte()?;
        Ok(field)
    }

    fn mask(&mut self) -> Result<u8, Refusal> {
        let place = self.at;
        let mask = self.byte()?;
        if mask & !self.all_fields != 0 {
            return Err(Refusal::at(FORM, place));
        }
        Ok(mask)
    }

    /// The next byte of the body; a body that ends early is refused at its end.
    fn byte(&mut self) -> Result<u8, Refusal> {
        let byte = *self.bytes.get(self.at).ok_or(Refusal::at(FORM, self.bytes.len()))?;
        self.at += 1;
        Ok(byte)
    }
}
