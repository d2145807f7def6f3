//! Where the boxes lie. Boxes go by their place here, from 0.

use super::fields::{Field, Word};

pub trait Shelf<F> {
    fn boxes(&self) -> usize;
    fn rows(&self) -> usize;
    fn stands(&self, place: usize) -> bool;
    fn withdraw(&mut self, place: usize);
    /// Lets a box stand; what is in it is for the caller to write.
    fn insert(&mut self, place: usize);
    /// A box's column, where it lies or, where it lies in another form, in the scratch.
    fn column<'a>(&'a self, place: usize, scratch: &'a mut [F]) -> &'a [F];
    fn write(&mut self, place: usize, column: &[F]);
    /// Adds to the symbol in one row of a box.
    fn add(&mut self, place: usize, row: usize, change: F);
}

/// Boxes in a buffer of symbols, one after another.
pub struct Flat<F> {
    boxes: usize,
    rows: usize,
    standing: u32,
    symbols: Vec<F>,
}

impl<F: Field> Flat<F> {
    pub fn new(boxes: usize, rows: usize) -> Self {
        Flat {
            boxes,
            rows,
            standing: 0,
            symbols: vec![F::ZERO; boxes * rows],
        }
    }

    fn place(&mut self, place: usize) -> &mut [F] {
        &mut self.symbols[place * self.rows..][..self.rows]
    }
}

impl<F: Field> Shelf<F> for Flat<F> {
    fn boxes(&self) -> usize {
        self.boxes
    }

    fn rows(&self) -> usize {
        self.rows
    }

    fn stands(&self, place: usize) -> bool {
        self.standing >> place & 1 == 1
    }

    fn withdraw(&mut self, place: usize) {
        self.standing &= !(1 << place);
    }

    fn insert(&mut self, place: usize) {
        self.standing |= 1 << place;
    }

    fn column<'a>(&'a self, place: usize, _: &'a mut [F]) -> &'a [F] {
        &self.symbols[place * self.rows..][..self.rows]
    }

    fn write(&mut self, place: usize, column: &[F]) {
        self.place(place).copy_from_slice(column);
    }

    fn add(&mut self, place: usize, row: usize, change: F) {
        self.place(place)[row] += change;
    }
}

/// Boxes of words in bytes, three bytes a word, the highest first.
pub struct Image {
    boxes: usize,
    rows: usize,
    standing: u32,
    bytes: Vec<u8>,
}

impl Image {
    pub fn new(boxes: usize, rows: usize) -> Self {
        Image {
            boxes,
            rows,
            standing: 0,
            bytes: vec![0; 3 * boxes * rows],
        }
    }

    fn place(&mut self, place: usize) -> &mut [u8] {
        &mut self.bytes[3 * place * self.rows..][..3 * self.rows]
    }
}

fn word_of(bytes: &[u8]) -> Word {
    Word::reduced(u32::from_be_bytes([0, bytes[0], bytes[1], bytes[2]]))
}

fn write_word(word: Word, bytes: &mut [u8]) {
    bytes.copy_from_slice(&word.number().to_be_bytes()[1..]);
}

impl Shelf<Word> for Image {
    fn boxes(&self) -> usize {
        self.boxes
    }

    fn rows(&self) -> usize {
        self.rows
    }

    fn stands(&self, place: usize) -> bool {
        self.standing >> place & 1 == 1
    }

    fn withdraw(&mut self, place: usize) {
        self.standing &= !(1 << place);
    }

    fn insert(&mut self, place: usize) {
        self.standing |= 1 << place;
    }

    fn column<'a>(&'a self, place: usize, scratch: &'a mut [Word]) -> &'a [Word] {
        let bytes = &self.bytes[3 * place * self.rows..][..3 * self.rows];
        for (word, bytes) in scratch.iter_mut().zip(bytes.chunks_exact(3)) {
            *word = word_of(bytes);
        }
        &scratch[..self.rows]
    }

    fn write(&mut self, place: usize, column: &[Word]) {
        for (bytes, &word) in self.place(place).chunks_exact_mut(3).zip(column) {
            write_word(word, bytes);
        }
    }

    fn add(&mut self, place: usize, row: usize, change: Word) {
        let bytes = &mut self.place(place)[3 * row..][..3];
        write_word(word_of(bytes) + change, bytes);
    }
}

/// Two shelves as one: the boxes of the first, then those of the second.
pub struct Joined<A, B> {
    first: A,
    second: B,
}

impl<A, B> Joined<A, B> {
    pub fn new(first: A, second: B) -> Self {
        Joined { first, second }
    }
}

impl<F, A: Shelf<F>, B: Shelf<F>> Shelf<F> for Joined<A, B> {
    fn boxes(&self) -> usize {
        self.first.boxes() + self.second.boxes()
    }

    fn rows(&self) -> usize {
        self.first.rows()
    }

    fn stands(&self, place: usize) -> bool {
        match place.checked_sub(self.first.boxes()) {
            None => self.first.stands(place),
            Some(place) => self.second.stands(place),
        }
    }

    fn withdraw(&mut self, place: usize) {
        match place.checked_sub(self.first.boxes()) {
            None => self.first.withdraw(place),
            Some(place) => self.second.withdraw(place),
        }
    }

    fn insert(&mut self, place: usize) {
        match place.checked_sub(self.first.boxes()) {
            None => self.first.insert(place),
            Some(place) => self.second.insert(place),
        }
    }

    fn column<'a>(&'a self, place: usize, scratch: &'a mut [F]) -> &'a [F] {
        match place.checked_sub(self.first.boxes()) {
            None => self.first.column(place, scratch),
            Some(place) => self.second.column(place, scratch),
        }
    }

    fn write(&mut self, place: usize, column: &[F]) {
        match place.checked_sub(self.first.boxes()) {
            None => self.first.write(place, column),
            Some(place) => self.second.write(place, column),
        }
    }

    fn add(&mut self, place: usize, row: usize, change: F) {
        match place.checked_sub(self.first.boxes()) {
            None => self.first.add(place, row, change),
            Some(place) => self.second.add(place, row, change),
        }
    }
}
