//! "Any call on a record: is it sound? 9." A refused call leaves the record as it is, so an unsound
//! record stays one; that a call on a sound one answers a sound one is tried in demand3.rs.

use crate::ahead::ahead;
use crate::book::{Book, Load, Why};
use crate::point::{Point, ORIGIN};
use crate::settings::Settings;
use crate::sound::{book_of, record_of, Record};

#[derive(Clone)]
pub enum Machine {
    Sound(Book),
    Unsound(Record),
}

/// What a look-ahead gives, a refused one too.
pub struct Ahead {
    pub refusal: Option<u32>,
    pub then: Machine,
    pub sums: Point,
}

const UNSOUND: u32 = 9;

impl Machine {
    pub fn make(settings: Settings) -> (Machine, Option<u32>) {
        let (book, number) = Book::make(settings);
        (Machine::Sound(book), number)
    }

    pub fn of_record(record: &Record) -> Machine {
        match book_of(record) {
            Some(book) => Machine::Sound(book),
            None => Machine::Unsound(record.clone()),
        }
    }

    pub fn book(&self) -> Option<&Book> {
        match self {
            Machine::Sound(book) => Some(book),
            Machine::Unsound(_) => None,
        }
    }

    /// The book, if question 9 lets a call through.
    pub fn asked(&mut self) -> Result<&mut Book, u32> {
        match self {
            Machine::Sound(book) => Ok(book),
            Machine::Unsound(_) => Err(UNSOUND),
        }
    }

    pub fn load(&mut self, load: &Load) -> Result<u32, u32> {
        self.asked()?.load(load)
    }

    pub fn tick(&mut self) -> Result<u8, u32> {
        Ok(self.asked()?.tick())
    }

    pub fn run(&mut self, budget: u64, length: u64, write: impl FnMut(u8)) -> Result<(Why, u64), u32> {
        Ok(self.asked()?.run(budget, length, write))
    }

    /// "These three answer done, or 9."
    pub fn hold(&mut self) -> Result<(), u32> {
        self.asked()?.hold();
        Ok(())
    }

    pub fn release(&mut self) -> Result<(), u32> {
        self.asked()?.release();
        Ok(())
    }

    pub fn stop(&mut self) -> Result<(), u32> {
        self.asked()?.stop();
        Ok(())
    }

    /// "A refusal gives the machine's own record and sums of 0."
    pub fn ahead(&self, ticks: u64) -> Ahead {
        match self.book().ok_or(UNSOUND).and_then(|book| ahead(book, ticks)) {
            Ok((book, sums)) => Ahead { refusal: None, then: Machine::Sound(book), sums },
            Err(number) => Ahead { refusal: Some(number), then: self.clone(), sums: ORIGIN },
        }
    }

    pub fn record(&self) -> Record {
        match self {
            Machine::Sound(book) => record_of(book),
            Machine::Unsound(record) => record.clone(),
        }
    }
}
