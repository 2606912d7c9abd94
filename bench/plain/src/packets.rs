//! Packets as numbers of 128 bits, and the operations on small ascending sets of them. Field f stands in the bits from
//! 16·(7−f) on, so that the order of the numbers is document 01's. A field that a position lacks is zero in every packet
//! of its set, and so passed over by itself.

pub type Packet = u128;
pub const MOST_PACKETS: usize = 16;

/// What holds one packet: a number in the evaluator, eight words of the working area in the machine.
pub trait Cell: Copy {
    fn get(&self) -> Packet;
    fn put(&mut self, x: Packet);
}

/// A set of so many packets lies in the first cells, ascending.
type Cells<C> = [C; MOST_PACKETS];

/// A number that need not be put yet: clearing a set costs more than most parts do. Only cells below a set's count are
/// read, all of which were put.
#[derive(Clone, Copy)]
pub struct Raw(std::mem::MaybeUninit<u128>);
impl Raw {
    pub const fn new() -> Raw {
        Raw(std::mem::MaybeUninit::uninit())
    }
}
impl Cell for Raw {
    #[inline(always)]
    fn get(&self) -> Packet {
        // Safety: it was put.
        unsafe { self.0.assume_init() }
    }
    #[inline(always)]
    fn put(&mut self, x: Packet) {
        self.0.write(x);
    }
}
impl Cell for [u16; 8] {
    #[inline(always)]
    fn get(&self) -> Packet {
        // Safety: the sizes are the same, and all bits are values of both. Shifts say the same, but are compiled poorly.
        unsafe { std::mem::transmute::<[u16; 8], u128>(*self) }
    }
    #[inline(always)]
    fn put(&mut self, x: Packet) {
        // Safety: as above.
        *self = unsafe { std::mem::transmute::<u128, [u16; 8]>(x) }
    }
}

/// Four words of the working area as one number.
#[inline(always)]
pub fn join(w: [u16; 4]) -> u64 {
    // Safety: as above.
    unsafe { std::mem::transmute::<[u16; 4], u64>(w) }
}
/// The number as four words.
#[inline(always)]
pub fn part(x: u64) -> [u16; 4] {
    // Safety: as above.
    unsafe { std::mem::transmute::<u64, [u16; 4]>(x) }
}

/// One field's bits; the index is taken modulo 8.
const FIELD: [Packet; 8] = {
    let mut t = [0; 8];
    let mut f = 0;
    while f < 8 {
        t[f] = 0xffffu128 << (16 * (7 - f));
        f += 1;
    }
    t
};

/// The bits of the fields of half a mask.
const HALF: [u64; 16] = {
    let mut t = [0; 16];
    let mut m = 0;
    while m < 16 {
        let mut f = 0;
        while f < 4 {
            if m >> f & 1 == 1 {
                t[m] |= 0xffffu64 << (16 * (3 - f));
            }
            f += 1;
        }
        m += 1;
    }
    t
};

/// The bits of all fields of a mask.
#[inline(always)]
pub fn spread(mask: u8) -> Packet {
    (HALF[(mask & 15) as usize] as u128) << 64 | HALF[(mask >> 4) as usize] as u128
}

/// A field and a value, ready to be compared with or put into any packet.
#[derive(Clone, Copy)]
pub struct Put {
    field: Packet,
    value: u64,
}
impl Put {
    #[inline(always)]
    pub fn new(f: u8, hi: u8, lo: u8) -> Put {
        Put { field: FIELD[(f & 7) as usize], value: ((hi as u64) << 8 | lo as u64) * 0x0001_0001_0001_0001 }
    }
    /// The bits in which the packet's field differs from the value.
    #[inline(always)]
    pub fn off(self, x: Packet) -> Packet {
        (x ^ ((self.value as u128) << 64 | self.value as u128)) & self.field
    }
}

pub fn pack(words: &[u16]) -> Packet {
    let mut x = 0;
    for (f, w) in words.iter().enumerate() {
        x |= (*w as Packet) << (16 * (7 - f));
    }
    x
}

#[inline(always)]
pub fn unpack(x: Packet, out: &mut [u16]) {
    for (f, w) in out.iter_mut().enumerate() {
        *w = (x >> (16 * (7 - (f & 7)))) as u16;
    }
}

/// Keeps the packets whose field has the value.
#[inline]
pub fn filter<C: Cell>(a: &mut Cells<C>, n: usize, t: Put) -> usize {
    let mut o = 0;
    for i in 0..n.min(MOST_PACKETS) {
        let x = a[i].get();
        a[o & 15].put(x);
        o += (t.off(x) == 0) as usize;
    }
    o
}

/// Sets the field in every packet; ascending and without equals again afterwards.
#[inline]
pub fn assign<C: Cell>(a: &mut Cells<C>, n: usize, t: Put) -> usize {
    let (mut last, mut straight) = (0, true);
    for (i, c) in a.iter_mut().enumerate().take(n) {
        let x = c.get();
        let x = x ^ t.off(x);
        c.put(x);
        straight &= (last < x) | (i == 0);
        last = x;
    }
    if straight {
        return n;
    }
    let mut o = 0;
    for i in 0..n.min(MOST_PACKETS) {
        let x = a[i].get();
        o = insert(a, o, x);
    }
    o
}

/// Puts x among the first n of a; mostly it belongs at the end.
#[inline(always)]
fn insert<C: Cell>(a: &mut Cells<C>, n: usize, x: Packet) -> usize {
    let mut i = n;
    while i > 0 && a[(i - 1) & 15].get() > x {
        i -= 1;
    }
    if i > 0 && a[(i - 1) & 15].get() == x {
        return n;
    }
    let mut j = n;
    while j > i {
        a[j & 15] = a[(j - 1) & 15];
        j -= 1;
    }
    a[i & 15].put(x);
    n + 1
}

/// The union, into a; none if it has more than 16.
#[inline]
pub fn union<C: Cell>(a: &mut Cells<C>, na: usize, b: &Cells<C>, nb: usize) -> Option<usize> {
    if nb == 0 {
        return Some(na);
    }
    if na == 0 {
        for i in 0..nb.min(MOST_PACKETS) {
            a[i] = b[i];
        }
        return Some(nb);
    }
    if na == 1 && nb == 1 {
        let (x, y) = (a[0].get(), b[0].get());
        if x == y {
            return Some(1);
        }
        a[0].put(if x < y { x } else { y });
        a[1].put(if x < y { y } else { x });
        return Some(2);
    }
    merge(a, na, b, nb)
}

#[inline(never)]
fn merge<C: Cell>(a: &mut Cells<C>, na: usize, b: &Cells<C>, nb: usize) -> Option<usize> {
    let (na, nb) = (na.min(MOST_PACKETS), nb.min(MOST_PACKETS));
    // all of b after all of a: so it is mostly after a split by packets
    if a[na - 1].get() < b[0].get() {
        if na + nb > MOST_PACKETS {
            return None;
        }
        for j in 0..nb {
            a[(na + j) & 15] = b[j];
        }
        return Some(na + nb);
    }
    let old = *a;
    let (mut i, mut j, mut o) = (0, 0, 0);
    while i < na && j < nb {
        if o == MOST_PACKETS {
            return None;
        }
        let (x, y) = (old[i].get(), b[j].get());
        a[o].put(if x < y { x } else { y });
        i += (x <= y) as usize;
        j += (y <= x) as usize;
        o += 1;
    }
    if o + (na - i) + (nb - j) > MOST_PACKETS {
        return None;
    }
    while i < na {
        a[o & 15] = old[i];
        i += 1;
        o += 1;
    }
    while j < nb {
        a[o & 15] = b[j];
        j += 1;
        o += 1;
    }
    Some(o)
}

/// Every pairing, into a; none if there are more than 16. The sides write no common field, so that no two pairings are
/// equal, and a field that both have is the same in both: a pairing is the bitwise or.
#[inline]
pub fn pair<C: Cell>(a: &mut Cells<C>, na: usize, b: &Cells<C>, nb: usize) -> Option<usize> {
    if na == 1 && nb == 1 {
        let x = a[0].get() | b[0].get();
        a[0].put(x);
        return Some(1);
    }
    if na == 0 || nb == 0 {
        return Some(0);
    }
    if na * nb > MOST_PACKETS {
        return None;
    }
    let old = *a;
    let mut o = 0;
    for x in &old[..na] {
        for y in &b[..nb] {
            o = insert(a, o, x.get() | y.get());
        }
    }
    Some(o)
}

/// Takes the packets of b, all of them in a, out of a.
#[inline]
pub fn minus<C: Cell>(a: &mut Cells<C>, na: usize, b: &Cells<C>, nb: usize) -> usize {
    if nb == 0 {
        return na;
    }
    let (mut o, mut j) = (0, 0);
    for i in 0..na.min(MOST_PACKETS) {
        let x = a[i].get();
        if j < nb && b[j & 15].get() == x {
            j += 1;
        } else {
            a[o & 15].put(x);
            o += 1;
        }
    }
    o
}
