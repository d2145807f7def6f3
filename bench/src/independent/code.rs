//! The code: blocks, encoding, halves, decoding.
//!
//! Boxes go by their place here, from 0. A column lies in rows; the partners
//! of a direction are `weight` rows apart.

use super::fields::Field;

/// The most rows that a box has.
pub const MOST_ROWS: usize = 64;

#[derive(Clone, Copy, Debug, PartialEq, Eq)]
pub enum Kind {
    Lower,
    Upper,
    Sum,
}

use Kind::{Lower, Sum, Upper};

impl Kind {
    /// What the functional of this kind gives of a pair.
    #[inline(always)]
    fn of<F: Field>(self, lower: F, upper: F) -> F {
        match self {
            Lower => lower,
            Upper => upper,
            Sum => lower + upper,
        }
    }

    fn next(self) -> Kind {
        match self {
            Lower => Upper,
            Upper => Sum,
            Sum => Lower,
        }
    }
}

/// What a data box's pairs are multiplied by in the second parity.
#[derive(Clone, Copy)]
pub struct Block<F> {
    kind: Kind,
    p: F,
    q: F,
    /// How far apart the partners of the box's direction are.
    weight: usize,
}

/// A size, of a field that has marks enough for it.
#[derive(Clone, Copy, Debug, PartialEq, Eq)]
pub struct Size(usize);

impl Size {
    pub fn new(m: usize) -> Option<Size> {
        (1..=6).contains(&m).then_some(Size(m))
    }

    pub fn m(self) -> usize {
        self.0
    }

    pub fn data_boxes(self) -> usize {
        3 * self.0
    }

    pub fn boxes(self) -> usize {
        3 * self.0 + 2
    }

    pub fn rows(self) -> usize {
        1 << self.0
    }

    pub fn pairs(self) -> usize {
        1 << (self.0 - 1)
    }

    pub fn symbols(self) -> usize {
        self.data_boxes() * self.rows()
    }

    pub fn block<F: Field>(self, place: usize) -> Block<F> {
        let m = self.0;
        let direction = place % m;
        Block {
            kind: [Lower, Upper, Sum][place / m],
            p: F::mark(2 * direction + 1),
            q: F::mark(2 * direction + 2),
            weight: 1 << (m - 1 - direction),
        }
    }
}

/// A matrix of two rows and columns.
#[derive(Clone, Copy)]
struct Matrix<F> {
    lower: (F, F),
    upper: (F, F),
}

impl<F: Field> Matrix<F> {
    #[inline(always)]
    fn apply(&self, s: F, t: F) -> (F, F) {
        (
            self.lower.0 * s + self.lower.1 * t,
            self.upper.0 * s + self.upper.1 * t,
        )
    }

    fn minus(self, other: Self) -> Self {
        Matrix {
            lower: (self.lower.0 - other.lower.0, self.lower.1 - other.lower.1),
            upper: (self.upper.0 - other.upper.0, self.upper.1 - other.upper.1),
        }
    }

    fn minus_number(self, number: F) -> Self {
        Matrix {
            lower: (self.lower.0 - number, self.lower.1),
            upper: (self.upper.0, self.upper.1 - number),
        }
    }

    fn inverse(self) -> Self {
        let ((a, b), (c, d)) = (self.lower, self.upper);
        let over = (a * d - b * c).inverse();
        Matrix {
            lower: (over * d, F::ZERO - over * b),
            upper: (F::ZERO - over * c, over * a),
        }
    }
}

/// How pairs lie in a column.
trait Layout {
    /// Runs over the pairs of a column beside those of a target.
    fn each<F: Field>(
        weight: usize,
        column: &[F],
        target: &mut [F],
        f: impl Fn(F, F, &mut F, &mut F),
    );
}

/// Partners are neighbours.
struct Neighbours;

impl Layout for Neighbours {
    #[inline(always)]
    fn each<F: Field>(_: usize, column: &[F], target: &mut [F], f: impl Fn(F, F, &mut F, &mut F)) {
        for (pair, target) in column.chunks_exact(2).zip(target.chunks_exact_mut(2)) {
            if let ([s, t], [x, y]) = (pair, target) {
                f(*s, *t, x, y);
            }
        }
    }
}

/// Runs of lower rows, each before its run of upper rows.
struct Runs;

impl Layout for Runs {
    #[inline(always)]
    fn each<F: Field>(
        weight: usize,
        column: &[F],
        target: &mut [F],
        f: impl Fn(F, F, &mut F, &mut F),
    ) {
        let runs = column.chunks_exact(2 * weight);
        for (run, target) in runs.zip(target.chunks_exact_mut(2 * weight)) {
            let (lower, upper) = run.split_at(weight);
            let (low, up) = target.split_at_mut(weight);
            for (((&s, &t), x), y) in lower.iter().zip(upper).zip(low).zip(up) {
                f(s, t, x, y);
            }
        }
    }
}

/// Runs over the pairs of a column.
#[inline(always)]
fn pairs_mut<F: Field>(weight: usize, column: &mut [F], mut f: impl FnMut(&mut F, &mut F)) {
    for run in column.chunks_exact_mut(2 * weight) {
        let (lower, upper) = run.split_at_mut(weight);
        for (s, t) in lower.iter_mut().zip(upper) {
            f(s, t);
        }
    }
}

fn add_column<F: Field>(column: &[F], sum: &mut [F]) {
    for (sum, &x) in sum.iter_mut().zip(column) {
        *sum += x;
    }
}

/// What stands in the target less the column.
fn subtract_from<F: Field>(whole: &[F], part: &mut [F]) {
    for (part, &whole) in part.iter_mut().zip(whole) {
        *part = whole - *part;
    }
}

impl<F: Field> Block<F> {
    pub fn apply(&self, s: F, t: F) -> (F, F) {
        self.matrix().apply(s, t)
    }

    pub fn weight(&self) -> usize {
        self.weight
    }

    fn matrix(&self) -> Matrix<F> {
        let &Block { kind, p, q, .. } = self;
        let zero = F::ZERO;
        let (lower, upper) = match kind {
            Lower => ((q, q - p), (zero, p)),
            Upper => ((q, zero), (p - q, p)),
            Sum => ((p, zero), (zero, q)),
        };
        Matrix { lower, upper }
    }

    /// Adds what the block makes of a column's pairs, which are `weight` apart.
    fn add_image_at(&self, weight: usize, column: &[F], sum: &mut [F]) {
        if weight == 1 {
            self.add_image_in::<Neighbours>(weight, column, sum);
        } else {
            self.add_image_in::<Runs>(weight, column, sum);
        }
    }

    /// Apart for each layout, so that the compiler takes each loop by itself.
    #[inline(never)]
    fn add_image_in<L: Layout>(&self, weight: usize, column: &[F], sum: &mut [F]) {
        let &Block { kind, p, q, .. } = self;
        let gap = q - p;
        match kind {
            Lower => L::each(weight, column, sum, |s, t, x, y| {
                *x += q * s + gap * t;
                *y += p * t;
            }),
            Upper => L::each(weight, column, sum, |s, t, x, y| {
                *x += q * s;
                *y += p * t - gap * s;
            }),
            Sum => L::each(weight, column, sum, |s, t, x, y| {
                *x += p * s;
                *y += q * t;
            }),
        }
    }

    fn add_image(&self, column: &[F], sum: &mut [F]) {
        self.add_image_at(self.weight, column, sum);
    }

    /// By what the block multiplies the number that another kind gives of a pair.
    fn eigenvalue(&self, other: Kind) -> F {
        if other == self.kind.next() {
            self.p
        } else {
            self.q
        }
    }

    /// The weight of this block's digit among the rows of a half for `lost`.
    fn weight_in_half(&self, lost: &Block<F>) -> usize {
        if self.weight > lost.weight {
            self.weight / 2
        } else {
            self.weight
        }
    }
}

fn columns<F>(size: Size, file: &[F]) -> impl Iterator<Item = (usize, &[F])> {
    file.chunks_exact(size.rows()).enumerate()
}

/// Adds all data columns but the missing ones.
fn add_columns<F: Field>(size: Size, file: &[F], missing: &[usize], first: &mut [F]) {
    for (place, column) in columns(size, file) {
        if !missing.contains(&place) {
            add_column(column, first);
        }
    }
}

/// Adds the images of all data columns but the missing ones.
fn add_images<F: Field>(size: Size, file: &[F], missing: &[usize], second: &mut [F]) {
    for (place, column) in columns(size, file) {
        if !missing.contains(&place) {
            size.block(place).add_image(column, second);
        }
    }
}

/// The first parity column of a file, into a column of zeros.
pub fn first_parity<F: Field>(size: Size, file: &[F], into: &mut [F]) {
    add_columns(size, file, &[], into);
}

/// The second parity column of a file, into a column of zeros.
pub fn second_parity<F: Field>(size: Size, file: &[F], into: &mut [F]) {
    add_images(size, file, &[], into);
}

/// The half of a column for a lost data box.
pub fn half<F: Field>(lost: &Block<F>, column: &[F], into: &mut [F]) {
    let runs = column.chunks_exact(2 * lost.weight);
    for (run, into) in runs.zip(into.chunks_exact_mut(lost.weight)) {
        let (lower, upper) = run.split_at(lost.weight);
        for ((&s, &t), into) in lower.iter().zip(upper).zip(into) {
            *into = lost.kind.of(s, t);
        }
    }
}

/// The column that the halves of all helpers, in rising order, give.
pub fn restore<F: Field>(size: Size, place: usize, halves: &[F], column: &mut [F]) {
    let lost = size.block::<F>(place);
    let pairs = size.pairs();
    let (data, parities) = halves.split_at((size.data_boxes() - 1) * pairs);
    let (first, second) = parities.split_at(pairs);

    let mut own = [F::ZERO; MOST_ROWS / 2];
    let mut image = [F::ZERO; MOST_ROWS / 2];
    let (own, image) = (&mut own[..pairs], &mut image[..pairs]);
    let helpers = (0..size.data_boxes()).filter(|&helper| helper != place);
    for (helper, half) in helpers.zip(data.chunks_exact(pairs)) {
        let block = size.block(helper);
        add_column(half, own);
        if block.weight == lost.weight {
            let eigenvalue = block.eigenvalue(lost.kind);
            for (image, &x) in image.iter_mut().zip(half) {
                *image += eigenvalue * x;
            }
        } else {
            block.add_image_at(block.weight_in_half(&lost), half, image);
        }
    }
    subtract_from(first, own);
    subtract_from(second, image);
    recover(&lost, own, image, column);
}

/// The column whose half is `own` and whose image's half is `image`.
fn recover<F: Field>(lost: &Block<F>, own: &[F], image: &[F], column: &mut [F]) {
    let &Block { kind, p, q, weight } = lost;
    let over = (q - p).inverse();
    let known = own.chunks_exact(weight).zip(image.chunks_exact(weight));
    for ((own, image), run) in known.zip(column.chunks_exact_mut(2 * weight)) {
        let (lower, upper) = run.split_at_mut(weight);
        for (((&h, &k), s), t) in own.iter().zip(image).zip(lower).zip(upper) {
            (*s, *t) = match kind {
                Lower => (h, over * (k - q * h)),
                Upper => (over * (p * h - k), h),
                Sum => {
                    let t = over * (k - p * h);
                    (h - t, t)
                }
            };
        }
    }
}

/// Fills in a missing data column from the first parity.
pub fn by_first<F: Field>(size: Size, place: usize, file: &mut [F], first: &[F]) {
    let rows = size.rows();
    let mut sum = [F::ZERO; MOST_ROWS];
    let sum = &mut sum[..rows];
    add_columns(size, file, &[place], sum);
    subtract_from(first, sum);
    file[place * rows..][..rows].copy_from_slice(sum);
}

/// Fills in a missing data column from the second parity.
pub fn by_second<F: Field>(size: Size, place: usize, file: &mut [F], second: &[F]) {
    let rows = size.rows();
    let block = size.block::<F>(place);
    let mut sum = [F::ZERO; MOST_ROWS];
    let sum = &mut sum[..rows];
    add_images(size, file, &[place], sum);
    subtract_from(second, sum);
    let undo = block.matrix().inverse();
    pairs_mut(block.weight, sum, |s, t| (*s, *t) = undo.apply(*s, *t));
    file[place * rows..][..rows].copy_from_slice(sum);
}

/// Fills in two missing data columns from both parities.
pub fn by_both<F: Field>(
    size: Size,
    missing: [usize; 2],
    file: &mut [F],
    first: &[F],
    second: &[F],
) {
    let rows = size.rows();
    let (a, b) = (size.block::<F>(missing[0]), size.block::<F>(missing[1]));
    let mut sum = [F::ZERO; MOST_ROWS];
    let mut rest = [F::ZERO; MOST_ROWS];
    let (sum, rest) = (&mut sum[..rows], &mut rest[..rows]);
    // X + Y, and A X + B Y
    add_columns(size, file, &missing, sum);
    subtract_from(first, sum);
    add_images(size, file, &missing, rest);
    // A X + B Y - B (X + Y) = (A - B) X
    b.add_image(sum, rest);
    subtract_from(second, rest);
    if a.weight == b.weight {
        let undo = a.matrix().minus(b.matrix()).inverse();
        pairs_mut(a.weight, rest, |s, t| (*s, *t) = undo.apply(*s, *t));
    } else {
        undo_crossing(&a, &b, rest);
    }
    // Y = (X + Y) - X
    file[missing[0] * rows..][..rows].copy_from_slice(rest);
    for ((y, &both), &x) in file[missing[1] * rows..][..rows]
        .iter_mut()
        .zip(&*sum)
        .zip(&*rest)
    {
        *y = both - x;
    }
}

/// Undoes A - B for blocks of two directions: on each of two halves along B's
/// direction B is a number.
fn undo_crossing<F: Field>(a: &Block<F>, b: &Block<F>, column: &mut [F]) {
    let pairs = column.len() / 2;
    let mut by_p = [F::ZERO; MOST_ROWS / 2];
    let mut by_q = [F::ZERO; MOST_ROWS / 2];
    let (by_p, by_q) = (&mut by_p[..pairs], &mut by_q[..pairs]);
    undone_half(a, b, b.kind.next(), b.p, column, by_p);
    undone_half(a, b, b.kind.next().next(), b.q, column, by_q);
    let halves = by_p.chunks_exact(b.weight).zip(by_q.chunks_exact(b.weight));
    for ((by_p, by_q), run) in halves.zip(column.chunks_exact_mut(2 * b.weight)) {
        let (lower, upper) = run.split_at_mut(b.weight);
        for (((&x, &y), s), t) in by_p.iter().zip(by_q).zip(lower).zip(upper) {
            (*s, *t) = match b.kind {
                Lower => (y - x, x),
                Upper => (y, x - y),
                Sum => (x, y),
            };
        }
    }
}

/// The half of a column by a functional for which B is a number, with A less
/// that number undone.
fn undone_half<F: Field>(
    a: &Block<F>,
    b: &Block<F>,
    kind: Kind,
    eigenvalue: F,
    column: &[F],
    into: &mut [F],
) {
    half(&Block { kind, ..*b }, column, into);
    let undo = a.matrix().minus_number(eigenvalue).inverse();
    pairs_mut(a.weight_in_half(b), into, |s, t| {
        (*s, *t) = undo.apply(*s, *t)
    });
}

#[cfg(test)]
mod tests {
    use super::super::fields::{Byte, Five, Four, Word};
    use super::*;

    fn symbols<F: Field>(numbers: &[u32]) -> Vec<F> {
        numbers.iter().map(|&n| F::symbol(n)).collect()
    }

    fn numbers<F: Field>(symbols: &[F]) -> Vec<u32> {
        symbols.iter().map(|x| x.number()).collect()
    }

    fn parities<F: Field>(m: usize, file: &[u32]) -> (Vec<u32>, Vec<u32>) {
        let size = Size::new(m).unwrap();
        let file = symbols::<F>(file);
        let mut first = vec![F::ZERO; size.rows()];
        let mut second = first.clone();
        first_parity(size, &file, &mut first);
        second_parity(size, &file, &mut second);
        (numbers(&first), numbers(&second))
    }

    #[test]
    fn worked_parities() {
        let of_five = parities::<Five>(1, &[1, 2, 3, 4, 0, 1]);
        assert_eq!(of_five, (vec![4, 2], vec![2, 1]));
        let amended = parities::<Five>(1, &[1, 0, 3, 4, 0, 1]);
        assert_eq!(amended, (vec![4, 0], vec![1, 4]));
        let mut file = [0; 24];
        file[3 * 4 + 2] = 1;
        let sparse = parities::<Five>(2, &file);
        assert_eq!(sparse, (vec![0, 0, 1, 0], vec![0, 0, 3, 4]));
        assert_eq!(parities::<Four>(1, &[1, 0, 0, 0, 0, 0]).1, [2, 0]);
        assert_eq!(parities::<Four>(1, &[0, 1, 0, 0, 0, 0]).1, [1, 3]);
        let of_bytes = parities::<Byte>(1, &[0x57, 0x83, 0, 0, 0, 0]);
        assert_eq!(of_bytes, (vec![0x57, 0x83], vec![0x30, 0x83]));
        let third = parities::<Word>(1, &[0, 0, 0, 0, 65536, 1]);
        assert_eq!(third.1, [65536, 2]);
        let first = parities::<Word>(1, &[65536, 65536, 0, 0, 0, 0]);
        assert_eq!(first.1, [65534, 65536]);
    }

    #[test]
    fn worked_renewals() {
        let size = Size::new(1).unwrap();
        let mut column = symbols::<Five>(&[0, 0]);
        restore(size, 0, &symbols(&[3, 0, 4, 2]), &mut column);
        assert_eq!(numbers(&column), [1, 2]);
        restore(size, 2, &symbols(&[3, 2, 1, 3]), &mut column);
        assert_eq!(numbers(&column), [0, 1]);
    }

    fn any_file<F: Field>(size: Size) -> Vec<F> {
        let mut x = 12345_u32;
        let mut draw = || {
            x = x.wrapping_mul(1103515245).wrapping_add(12345);
            F::symbol((x >> 8) % F::SIZE)
        };
        (0..size.symbols()).map(|_| draw()).collect()
    }

    /// Each box alone from halves, and each one or two boxes from the parities.
    fn comes_back<F: Field>(m: usize) {
        let size = Size::new(m).unwrap();
        let rows = size.rows();
        let file = any_file::<F>(size);
        let mut first = vec![F::ZERO; rows];
        let mut second = first.clone();
        first_parity(size, &file, &mut first);
        second_parity(size, &file, &mut second);
        let place_of = |place: usize| place * rows..(place + 1) * rows;
        let damaged = |missing: &[usize]| {
            let mut file = file.clone();
            for &place in missing {
                file[place_of(place)].fill(F::symbol(1));
            }
            file
        };
        for a in 0..size.data_boxes() {
            let mut single = damaged(&[a]);
            by_first(size, a, &mut single, &first);
            assert_eq!(single, file);
            let mut single = damaged(&[a]);
            by_second(size, a, &mut single, &second);
            assert_eq!(single, file);

            let lost = size.block::<F>(a);
            let mut halves = vec![];
            let helpers = columns(size, &file).filter(|&(helper, _)| helper != a);
            let all = helpers.map(|(_, column)| column);
            for column in all.chain([&first[..], &second[..]]) {
                let mut message = vec![F::ZERO; size.pairs()];
                half(&lost, column, &mut message);
                halves.extend(message);
            }
            let mut column = vec![F::ZERO; rows];
            restore(size, a, &halves, &mut column);
            assert_eq!(column, file[place_of(a)]);

            for b in a + 1..size.data_boxes() {
                let mut two = damaged(&[a, b]);
                by_both(size, [a, b], &mut two, &first, &second);
                assert_eq!(two, file);
            }
        }
    }

    #[test]
    fn any_boxes_come_back() {
        comes_back::<Five>(1);
        comes_back::<Five>(2);
        comes_back::<Four>(1);
        for m in 1..=6 {
            comes_back::<Byte>(m);
            comes_back::<Word>(m);
        }
    }
}
