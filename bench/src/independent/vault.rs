//! The vault: its nine calls.

use super::code::{self, Size, MOST_ROWS};
use super::fields::Field;
use super::shelf::Shelf;
use std::marker::PhantomData;

#[derive(Clone, Copy, Debug, PartialEq, Eq)]
pub enum Refusal {
    NotSetUp = 1,
    Size = 2,
    Marks = 3,
    Shape = 4,
    Length = 5,
    NoBox = 6,
    NoRow = 7,
    Out = 8,
    Standing = 9,
    ManyOut = 10,
    NotRenewable = 11,
    Helper = 12,
}

fn refuse_if(fits: bool, why: Refusal) -> Result<(), Refusal> {
    if fits {
        Err(why)
    } else {
        Ok(())
    }
}

pub struct Vault<F, S> {
    shelf: S,
    size: Option<Size>,
    field: PhantomData<F>,
}

/// Places of boxes that are out: the lowest two, and how many there are.
struct Missing {
    lowest: [usize; 2],
    count: usize,
}

impl Missing {
    fn places(&self) -> &[usize] {
        &self.lowest[..self.count.min(2)]
    }
}

impl<F: Field, S: Shelf<F>> Vault<F, S> {
    pub fn new(shelf: S) -> Self {
        Vault {
            shelf,
            size: None,
            field: PhantomData,
        }
    }

    fn size(&self) -> Result<Size, Refusal> {
        self.size.ok_or(Refusal::NotSetUp)
    }

    fn missing(&self, size: Size) -> Missing {
        let mut lowest = [0; 2];
        let mut count = 0;
        for place in (0..size.boxes()).filter(|&place| !self.shelf.stands(place)) {
            if let Some(free) = lowest.get_mut(count) {
                *free = place;
            }
            count += 1;
        }
        Missing { lowest, count }
    }

    /// The boxes that are out, if there are at most two.
    fn few_missing(&self, size: Size) -> Result<Missing, Refusal> {
        let missing = self.missing(size);
        refuse_if(missing.count > 2, Refusal::ManyOut)?;
        Ok(missing)
    }

    pub fn set_up(&mut self, m: usize) -> Result<(), Refusal> {
        let size = Size::new(m).ok_or(Refusal::Size)?;
        refuse_if(F::MARKS < 2 * m, Refusal::Marks)?;
        let fits = self.shelf.boxes() == size.boxes() && self.shelf.rows() == size.rows();
        refuse_if(!fits, Refusal::Shape)?;
        let zeros = [F::ZERO; MOST_ROWS];
        for place in 0..size.boxes() {
            self.shelf.insert(place);
            self.shelf.write(place, &zeros[..size.rows()]);
        }
        self.size = Some(size);
        Ok(())
    }

    pub fn put(&mut self, file: &[F]) -> Result<(), Refusal> {
        let size = self.size()?;
        refuse_if(file.len() != size.symbols(), Refusal::Length)?;
        self.few_missing(size)?;
        for (place, column) in file.chunks_exact(size.rows()).enumerate() {
            if self.shelf.stands(place) {
                self.shelf.write(place, column);
            }
        }
        for place in size.data_boxes()..size.boxes() {
            if self.shelf.stands(place) {
                self.write_parity(size, file, place);
            }
        }
        Ok(())
    }

    fn write_parity(&mut self, size: Size, file: &[F], place: usize) {
        let mut column = [F::ZERO; MOST_ROWS];
        let column = &mut column[..size.rows()];
        if place == size.data_boxes() {
            code::first_parity(size, file, column);
        } else {
            code::second_parity(size, file, column);
        }
        self.shelf.write(place, column);
    }

    /// The file of the first 3m boxes that stand.
    fn fetch(&self, size: Size, missing: &Missing, file: &mut [F]) {
        let missing = missing.places();
        for (place, column) in file.chunks_exact_mut(size.rows()).enumerate() {
            if !missing.contains(&place) {
                self.copy_column(place, column);
            }
        }
        let first = size.data_boxes();
        let second = first + 1;
        let mut scratch = [F::ZERO; MOST_ROWS];
        let scratch = &mut scratch[..size.rows()];
        match *missing {
            [a, b] if b < first => {
                let sum = self.shelf.column(first, scratch);
                let mut scratch = [F::ZERO; MOST_ROWS];
                let images = self.shelf.column(second, &mut scratch[..size.rows()]);
                code::by_both(size, [a, b], file, sum, images);
            }
            [a, b] if a < first && b == first => {
                code::by_second(size, a, file, self.shelf.column(second, scratch));
            }
            [a, ..] if a < first => {
                code::by_first(size, a, file, self.shelf.column(first, scratch));
            }
            _ => {}
        }
    }

    fn copy_column(&self, place: usize, into: &mut [F]) {
        let mut scratch = [F::ZERO; MOST_ROWS];
        let rows = into.len();
        into.copy_from_slice(self.shelf.column(place, &mut scratch[..rows]));
    }

    pub fn amend(
        &mut self,
        number: usize,
        row: usize,
        symbol: F,
        work: &mut [F],
    ) -> Result<(), Refusal> {
        let size = self.size()?;
        refuse_if(work.len() != size.symbols(), Refusal::Length)?;
        refuse_if(!(1..=size.data_boxes()).contains(&number), Refusal::NoBox)?;
        refuse_if(row >= size.rows(), Refusal::NoRow)?;
        let missing = self.few_missing(size)?;
        self.fetch(size, &missing, work);
        let place = number - 1;
        let old = &mut work[place * size.rows() + row];
        let change = symbol - *old;
        *old = symbol;
        self.move_boxes(size, place, row, change);
        Ok(())
    }

    /// Moves each box that stands by its column of a change in one symbol.
    fn move_boxes(&mut self, size: Size, place: usize, row: usize, change: F) {
        let first = size.data_boxes();
        let second = first + 1;
        if self.shelf.stands(place) {
            self.shelf.add(place, row, change);
        }
        if self.shelf.stands(first) {
            self.shelf.add(first, row, change);
        }
        if self.shelf.stands(second) {
            let block = size.block::<F>(place);
            let lower_row = row & !block.weight();
            let (lower, upper) = if row == lower_row {
                block.apply(change, F::ZERO)
            } else {
                block.apply(F::ZERO, change)
            };
            self.shelf.add(second, lower_row, lower);
            self.shelf.add(second, lower_row | block.weight(), upper);
        }
    }

    pub fn read(&self, into: &mut [F]) -> Result<(), Refusal> {
        let size = self.size()?;
        refuse_if(into.len() != size.symbols(), Refusal::Length)?;
        let missing = self.few_missing(size)?;
        self.fetch(size, &missing, into);
        Ok(())
    }

    pub fn column(&self, number: usize, into: &mut [F]) -> Result<(), Refusal> {
        let size = self.size()?;
        refuse_if(into.len() != size.rows(), Refusal::Length)?;
        refuse_if(!(1..=size.boxes()).contains(&number), Refusal::NoBox)?;
        refuse_if(!self.shelf.stands(number - 1), Refusal::Out)?;
        self.copy_column(number - 1, into);
        Ok(())
    }

    pub fn message(&self, helper: usize, lost: usize, into: &mut [F]) -> Result<(), Refusal> {
        let size = self.size()?;
        refuse_if(into.len() != size.pairs(), Refusal::Length)?;
        let numbers = 1..=size.boxes();
        let numbered = numbers.contains(&helper) && numbers.contains(&lost);
        refuse_if(!numbered, Refusal::NoBox)?;
        refuse_if(!self.shelf.stands(helper - 1), Refusal::Out)?;
        refuse_if(lost > size.data_boxes(), Refusal::NotRenewable)?;
        refuse_if(helper == lost, Refusal::Helper)?;
        self.send(size, helper - 1, lost - 1, into);
        Ok(())
    }

    fn send(&self, size: Size, helper: usize, lost: usize, into: &mut [F]) {
        let mut scratch = [F::ZERO; MOST_ROWS];
        let column = self.shelf.column(helper, &mut scratch[..size.rows()]);
        code::half(&size.block(lost), column, into);
    }

    pub fn lose(&mut self, number: usize) -> Result<(), Refusal> {
        let size = self.size()?;
        refuse_if(!(1..=size.boxes()).contains(&number), Refusal::NoBox)?;
        refuse_if(!self.shelf.stands(number - 1), Refusal::Out)?;
        self.shelf.withdraw(number - 1);
        Ok(())
    }

    pub fn renew(&mut self, number: usize, work: &mut [F]) -> Result<usize, Refusal> {
        let size = self.size()?;
        refuse_if(work.len() != size.symbols(), Refusal::Length)?;
        refuse_if(!(1..=size.boxes()).contains(&number), Refusal::NoBox)?;
        refuse_if(self.shelf.stands(number - 1), Refusal::Standing)?;
        let missing = self.few_missing(size)?;
        let renewable = number <= size.data_boxes() && missing.count == 1;
        refuse_if(!renewable, Refusal::NotRenewable)?;

        let lost = number - 1;
        let taken = (size.boxes() - 1) * size.pairs();
        let halves = &mut work[..taken];
        let helpers = (0..size.boxes()).filter(|&helper| helper != lost);
        for (helper, half) in helpers.zip(halves.chunks_exact_mut(size.pairs())) {
            self.send(size, helper, lost, half);
        }
        let mut column = [F::ZERO; MOST_ROWS];
        let column = &mut column[..size.rows()];
        code::restore(size, lost, halves, column);
        self.shelf.insert(lost);
        self.shelf.write(lost, column);
        Ok(taken)
    }

    pub fn rebuild(&mut self, work: &mut [F]) -> Result<usize, Refusal> {
        let size = self.size()?;
        refuse_if(work.len() != size.symbols(), Refusal::Length)?;
        let missing = self.few_missing(size)?;
        self.fetch(size, &missing, work);
        for &place in missing.places() {
            self.shelf.insert(place);
            if place < size.data_boxes() {
                let column = &work[place * size.rows()..][..size.rows()];
                self.shelf.write(place, column);
            } else {
                self.write_parity(size, work, place);
            }
        }
        Ok(missing.count)
    }
}
