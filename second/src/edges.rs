//! Books at the edges of the rules, on both sides of each.

use crate::book::all_fields;
use crate::policy::*;

/// Books and packets that stand at an edge.
pub struct Edge {
    pub book: Vec<u8>,
    pub packet: Vec<u16>,
}

fn edge(book: Vec<u8>, packet: &[u16]) -> Edge {
    Edge { book, packet: packet.to_vec() }
}

/// A book over two fields with R empty and W both, on the packet (5, 9).
fn two_fields(main: &Policy) -> Edge {
    edge(book_of(2, main), &[5, 9])
}

pub fn all() -> Vec<Edge> {
    let groups = [
        trials(),
        packets_about_sixteen(),
        rooms_about_160(),
        parts_about_1023(),
        concurrency_about_four(),
        depth_about_32(),
        body_ends(),
        operands(),
        typing(),
        tables(),
        headers(),
        sizes(),
        many_steps(),
    ];
    groups.into_iter().flatten().collect()
}

pub fn books() -> Vec<Vec<u8>> {
    all().into_iter().map(|edge| edge.book).collect()
}

/// The book of the run printer's example.
pub fn example() -> Policy {
    beside(1, 2, set(0, 1), set(1, 2))
}

fn trials() -> Vec<Edge> {
    let zeroes = sequence(set(0, 0), set(1, 0));
    let ones = sequence(set(0, 1), set(1, 1));
    let crossing = sequence(sum(zeroes, ones), beside(1, 2, Policy::Id, Policy::Id));
    let mains = [
        Policy::Id,
        Policy::Drop,
        Policy::Test(0, 5),
        not(Policy::Test(0, 5)),
        sum(set(0, 1), set(0, 1)),
        example(),
        crossing,
        beside(1, 1, Policy::Id, Policy::Id),
        beside(0, 1, Policy::Test(0, 5), set(0, 1)),
        not(set(0, 1)),
    ];
    let mut edges: Vec<Edge> = mains.iter().map(two_fields).collect();
    edges.push(edge(book_of(2, &Policy::Test(0, 5)), &[6, 9]));
    edges.push(edge(book_of(2, &not(Policy::Test(0, 5))), &[6, 9]));
    edges
}

/// The field set to each of so many values, in a balanced sum.
fn to_each(field: u8, count: u16) -> Policy {
    let sets: Vec<Policy> = (0..count).map(|value| set(field, value)).collect();
    balanced(sum, &sets)
}

/// Fields 0 to count - 1 each (to 0 + to 1), in sequence.
pub fn spread(count: u8) -> Policy {
    let fields: Vec<Policy> = (0..count).map(|field| to_each(field, 2)).collect();
    chained(sequence, &fields)
}

fn packets_about_sixteen() -> Vec<Edge> {
    let five = [7, 1, 8, 2, 8];
    let mut edges = vec![edge(book_of(5, &spread(4)), &five), edge(book_of(5, &spread(5)), &five)];
    let pairs = |left: u16, right: u16| beside(1, 2, to_each(0, left), to_each(1, right));
    let collapsed = |wide: Policy| sequence(wide, sequence(set(0, 0), set(1, 0)));
    let mains = [
        to_each(0, 16),
        to_each(0, 17),
        sum(to_each(0, 16), set(0, 3)),
        sum(to_each(0, 16), set(1, 3)),
        pairs(4, 4),
        pairs(2, 8),
        pairs(3, 5),
        pairs(3, 6),
        pairs(17, 1),
        pairs(1, 17),
        // Too wide on the way counts, though the end would be narrow.
        collapsed(to_each(0, 17)),
        collapsed(pairs(2, 9)),
        collapsed(pairs(4, 4)),
        // Joins of splits: 4 packets that become 16, 5 that become more.
        sequence(to_each(0, 4), beside(1, 2, Policy::Id, to_each(1, 4))),
        sequence(to_each(0, 5), beside(1, 2, Policy::Id, to_each(1, 4))),
        // 16 packets that all become the same.
        sequence(to_each(0, 16), beside(1, 2, set(0, 1), set(1, 2))),
        // On no packet a concurrent part takes one step.
        sequence(Policy::Drop, beside(1, 2, to_each(0, 17), to_each(1, 17))),
        sequence(Policy::Test(0, 6), pairs(4, 5)),
        // What a negation judges may not be too wide either, packet by packet it goes.
        sequence(to_each(0, 16), not(sum(Policy::Test(0, 3), Policy::Test(0, 65_535)))),
    ];
    edges.extend(mains.iter().map(two_fields));
    edges
}

pub fn drops(count: usize) -> Policy {
    balanced(sum, &vec![Policy::Drop; count])
}

fn rooms_about_160() -> Vec<Edge> {
    let split_room =
        |packets: u16, leaves: usize| sequence(to_each(0, packets), beside(1, 2, drops(leaves), Policy::Id));
    let mains = [
        drops(80),
        sequence(drops(80), Policy::Id),
        sequence(Policy::Id, drops(80)),
        drops(81),
        not(drops(80)),
        not(not(drops(80))),
        not(sequence(not(drops(79)), Policy::Id)),
        sequence(drops(81), Policy::Id),
        // 16 packets of room 3 make 63; of room 9 make 159; of room 11 make 191.
        split_room(16, 1),
        split_room(16, 4),
        split_room(16, 5),
        sum(Policy::Id, split_room(16, 4)),
        sequence(split_room(16, 4), Policy::Drop),
        sequence(sequence(split_room(16, 4), Policy::Drop), Policy::Id),
    ];
    mains.iter().map(two_fields).collect()
}

fn ids(count: usize) -> Policy {
    balanced(sequence, &vec![Policy::Id; count])
}

fn parts_about_1023() -> Vec<Edge> {
    let mut edges = vec![two_fields(&ids(512)), two_fields(&not(ids(512)))];
    // With a table of t parts used u times: u + u·t + (u - 1) parts.
    for (uses, leaves, negated) in
        [(2, 255, false), (2, 256, false), (32, 16, false), (32, 16, true), (31, 16, true)]
    {
        let main = balanced(sequence, &vec![Policy::Table(1); uses]);
        let table = if negated { not(ids(leaves)) } else { ids(leaves) };
        edges.push(edge(write_book(1, &[Entry::new(0, 1, &main), Entry::new(0, 0, &table)]), &[1]));
    }
    // A table never used has no such limit.
    edges.push(edge(write_book(1, &[Entry::new(0, 1, &Policy::Drop), Entry::new(0, 0, &ids(600))]), &[1]));
    edges
}

pub fn nested_beside(count: usize, inside: Policy) -> Policy {
    (0..count).fold(inside, |inside, _| beside(0, 0, inside, Policy::Id))
}

fn concurrency_about_four() -> Vec<Edge> {
    let mut edges = Vec::new();
    for count in [4, 5] {
        edges.push(two_fields(&nested_beside(count, Policy::Id)));
        let on_the_right = (0..count).fold(Policy::Drop, |inside, _| beside(0, 0, Policy::Id, inside));
        edges.push(two_fields(&on_the_right));
        for in_table in 1..=count {
            let main = Entry::new(0, 1, &nested_beside(count - in_table, Policy::Table(1)));
            let table = Entry::new(0, 0, &nested_beside(in_table, Policy::Id));
            edges.push(edge(write_book(1, &[main, table]), &[1]));
        }
    }
    let unused = Entry::new(0, 0, &nested_beside(6, Policy::Id));
    edges.push(edge(write_book(1, &[Entry::new(0, 1, &Policy::Id), unused]), &[1]));
    // Side by side they do not add up.
    edges.push(two_fields(&sequence(nested_beside(4, Policy::Id), nested_beside(4, Policy::Drop))));
    edges
}

fn depth_about_32() -> Vec<Edge> {
    let mut edges = Vec::new();
    for depth in [31, 32, 33] {
        let nots = (1..depth).fold(Policy::Id, |inside, _| not(inside));
        let to_the_left = (1..depth).fold(Policy::Drop, |inside, _| sequence(inside, Policy::Id));
        let to_the_right = (1..depth).fold(Policy::Test(0, 1), |inside, _| sum(Policy::Id, inside));
        for policy in [nots, to_the_left, to_the_right] {
            edges.push(two_fields(&policy));
            let main = Entry::new(0, 3, &Policy::Table(1));
            edges.push(edge(write_book(2, &[main, Entry::new(1, 0, &policy)]), &[1, 2]));
        }
    }
    // The byte at depth 33 is missing, unknown, or of the wrong kind.
    for tail in [&[][..], &[9], &[3, 0, 0, 0], &[0, 0]] {
        edges.push(with_body(&[&[4; 32][..], tail].concat()));
        edges.push(with_body(&[&[4; 31][..], tail].concat()));
    }
    edges
}

/// A book over two fields with these bytes as its main body.
fn with_body(body: &[u8]) -> Edge {
    edge(write_book(2, &[Entry { readable: 0, writable: 3, body: body.to_vec() }]), &[5, 9])
}

/// Every code cut after each of its bytes, and a byte too many.
fn body_ends() -> Vec<Edge> {
    let whole: [&[u8]; 9] = [
        &[0],
        &[1],
        &[2, 0, 0, 5],
        &[3, 1, 255, 255],
        &[4, 0],
        &[5, 0, 1],
        &[6, 1, 0],
        &[7, 1, 2, 0, 0],
        &[8, 1],
    ];
    let mut edges = Vec::new();
    for body in whole {
        for cut in 0..body.len() {
            edges.push(with_body(&body[..cut]));
        }
        edges.push(with_body(&[body, &[0]].concat()));
        // The same cut in a table: its end is not the end of the book.
        let main = Entry::new(0, 3, &Policy::Id);
        let cut = Entry { readable: 0, writable: 3, body: body[..body.len() - 1].to_vec() };
        let last = Entry::new(0, 3, &Policy::Drop);
        edges.push(edge(write_book(2, &[main, cut, last]), &[5, 9]));
    }
    edges
}

/// Fields, masks, codes and kinds that cannot stand.
fn operands() -> Vec<Edge> {
    let bodies: [&[u8]; 14] = [
        &[2, 1, 0, 0],
        &[2, 2, 0, 0],
        &[3, 2, 0, 0],
        &[3, 8, 0, 0],
        &[2, 255, 0, 0],
        &[7, 4, 0, 0, 0],
        &[7, 0, 4, 0, 0],
        &[7, 128, 255, 0, 0],
        &[9],
        &[255],
        &[4, 7, 0, 0, 0, 0],
        &[4, 8, 1],
        &[4, 5, 0, 3, 0, 0, 0],
        &[6, 3, 0, 0, 0, 4, 4, 3, 9],
    ];
    bodies.iter().map(|body| with_body(body)).collect()
}

fn typing() -> Vec<Edge> {
    let wrong = || beside(1, 1, Policy::Id, Policy::Id);
    let mains = [
        beside(0, 2, set(0, 1), Policy::Id),
        beside(1, 0, Policy::Id, set(1, 1)),
        beside(1, 3, Policy::Id, Policy::Id),
        beside(1, 2, Policy::Test(1, 0), Policy::Id),
        beside(1, 2, Policy::Id, Policy::Test(0, 0)),
        beside(1, 2, Policy::Test(0, 5), Policy::Test(1, 9)),
        beside(0, 0, Policy::Test(0, 5), Policy::Test(0, 5)),
        sequence(Policy::Id, wrong()),
        beside(1, 2, wrong(), Policy::Id),
        beside(2, 2, wrong(), wrong()),
        // Not right inside, and the masks as stated are still those judged outside.
        beside(0, 2, wrong(), Policy::Id),
    ];
    let mut edges: Vec<Edge> = mains.iter().map(two_fields).collect();
    let declared = [(0, 3), (1, 2), (2, 1), (3, 0), (0, 1), (0, 0)];
    for (readable, writable) in declared {
        for main in [set(0, 1), Policy::Test(0, 1), beside(1, 2, Policy::Id, Policy::Id)] {
            edges.push(edge(write_book(2, &[Entry::new(readable, writable, &main)]), &[5, 9]));
        }
    }
    edges.extend(tables_in_typing());
    edges
}

fn tables_in_typing() -> Vec<Edge> {
    let main = beside(1, 2, Policy::Id, Policy::Table(1));
    let book = |table: Entry| edge(write_book(2, &[Entry::new(0, 3, &main), table]), &[5, 9]);
    let unfit_main = |table: &Policy| {
        edge(write_book(2, &[Entry::new(1, 2, &set(0, 1)), Entry::new(1, 2, table)]), &[5, 9])
    };
    vec![
        // The declared masks count, whether the body needs them or not, populated or not.
        book(Entry::new(1, 2, &Policy::Id)),
        book(Entry::unpopulated(1, 2)),
        book(Entry::unpopulated(0, 2)),
        book(Entry::new(0, 2, &set(1, 3))),
        book(Entry::new(0, 2, &set(0, 3))),
        // Every concurrent part comes before any fit.
        unfit_main(&beside(1, 1, Policy::Id, Policy::Id)),
        unfit_main(&set(0, 1)),
    ]
}

fn tables() -> Vec<Edge> {
    let mut edges = Vec::new();
    for count in [0_u8, 1, 2, 7, 14, 15] {
        for number in [0, 1, count, count.saturating_add(1), 255] {
            let mut entries = vec![Entry::new(0, 1, &sequence(Policy::Table(number), set(0, 4)))];
            entries.extend((1..=count).map(|x| Entry::new(0, 1, &set(0, x as u16))));
            edges.push(edge(write_book(1, &entries), &[1]));
        }
    }
    for (used, populated) in [(1, true), (1, false), (2, true), (2, false)] {
        let main = Entry::new(0, 1, &sequence(Policy::Drop, Policy::Table(used)));
        let first = if populated { Entry::new(0, 1, &Policy::Test(0, 1)) } else { Entry::unpopulated(0, 1) };
        edges.push(edge(write_book(1, &[main, first, Entry::new(0, 0, &Policy::Id)]), &[1]));
    }
    // Named but never reached with a packet, or twice: 9 all the same.
    let main = Entry::new(0, 1, &sum(Policy::Table(1), Policy::Table(1)));
    edges.push(edge(write_book(1, &[main, Entry::unpopulated(0, 0)]), &[1]));
    // 9 before 10 and 11.
    let wide_and_roomy = sequence(sequence(Policy::Table(1), to_each(0, 17)), drops(81));
    edges.push(edge(write_book(1, &[Entry::new(0, 1, &wide_and_roomy), Entry::unpopulated(0, 0)]), &[1]));
    edges.push(edge(book_of(1, &sequence(to_each(0, 17), drops(81))), &[1]));
    // A table body inside the concurrent parts of the main policy.
    let main = beside(1, 2, Policy::Table(1), Policy::Table(2));
    let entries =
        [Entry::new(0, 7, &main), Entry::new(4, 1, &to_each(0, 4)), Entry::new(4, 2, &to_each(1, 4))];
    edges.push(edge(write_book(3, &entries), &[9, 9, 9]));
    edges
}

/// Every k and m, and those that cannot be; masks of entries on both sides of the rule.
fn headers() -> Vec<Edge> {
    let mut edges = Vec::new();
    for fields in [0, 1, 2, 3, 4, 5, 6, 7, 8, 9, 255] {
        let all = all_fields((fields as usize).clamp(1, 8));
        let last = fields.clamp(1, 8) - 1;
        let entry = Entry::new(0, all, &sum(set(last, 65_535), set(0, 256)));
        edges.push(edge(write_book(fields, &[entry]), &vec![3; (fields as usize).clamp(1, 8)]));
    }
    for count in 0..=15 {
        let mut entries = vec![Entry::new(0, 1, &Policy::Drop)];
        entries.extend((0..count).map(|_| Entry::unpopulated(1, 0)));
        edges.push(edge(write_book(1, &entries), &[0]));
    }
    for tables in [16, 17, 128, 255] {
        edges.push(edge([vec![1, tables], vec![0; 80]].concat(), &[0]));
    }
    let masks = [(1, 1), (4, 0), (0, 4), (3, 1), (128, 0), (0, 128), (1, 2), (3, 0), (0, 3), (2, 3)];
    for (readable, writable) in masks {
        let main = Entry::new(readable, writable, &Policy::Id);
        edges.push(edge(write_book(2, &[main]), &[5, 9]));
        let entries = [Entry::new(0, 3, &Policy::Id), Entry::unpopulated(readable, writable)];
        edges.push(edge(write_book(2, &entries), &[5, 9]));
    }
    edges
}

/// A policy of exactly so many bytes, of depth well under 32, and a predicate.
fn of_length(length: usize) -> Policy {
    if length.is_multiple_of(2) {
        not(of_length(length - 1))
    } else {
        ids(length / 2 + 1)
    }
}

/// Books of 0, 1, 2, 4,096 and 4,097 bytes, and lengths that do not add up.
fn sizes() -> Vec<Edge> {
    let filled = |total: usize| {
        let table = of_length(total - 2 - 4 * 2 - 1);
        write_book(1, &[Entry::new(0, 1, &Policy::Drop), Entry::new(0, 0, &table)])
    };
    let mut edges: Vec<Edge> = [vec![], vec![1, 0], vec![0, 0], vec![8, 15], vec![8, 16]]
        .into_iter()
        .map(|book| edge(book, &[1]))
        .collect();
    edges.extend([0, 1, 2, 4, 8, 9, 16, 64, 128, 255].map(|byte| edge(vec![byte], &[1])));
    edges.push(edge(filled(4095), &[1]));
    edges.push(edge(filled(4096), &[1]));
    edges.push(edge(filled(4097), &[1]));
    edges.push(edge(filled(4098), &[1]));
    let example = book_of(2, &example());
    for cut in 2..example.len() {
        edges.push(edge(example[..cut].to_vec(), &[5, 9]));
    }
    edges.push(edge([&example[..], &[0]].concat(), &[5, 9]));
    edges
}

/// A field spread to 16 packets, a concurrent part that spreads the next one, and so on down; each
/// field is put back, so that no set is wider.
fn spread_and_put_back(field: u8, fields: u8) -> Policy {
    let inside = if field + 1 == fields {
        Policy::Drop
    } else {
        let later = all_fields(fields as usize) & !all_fields(field as usize + 1);
        beside(1 << field, later, Policy::Id, spread_and_put_back(field + 1, fields))
    };
    sequence(to_each(field, 16), sequence(inside, set(field, 0)))
}

/// Numbers of steps and rooms far over 65,535, each answered by the evaluator and refused as a run.
fn many_steps() -> Vec<Edge> {
    (2..=5)
        .map(|fields| edge(book_of(fields, &spread_and_put_back(0, fields)), &vec![1; fields as usize]))
        .collect()
}
