//! The places of both sets: number, name in words, and whether an exchange is made from there.

use crate::shadow::Kind;

pub struct Place {
    pub number: u8,
    pub name: &'static str,
    pub is_exchange: bool,
}

/// A look, a load, a read or a write.
const fn made(number: u8, name: &'static str) -> Place {
    Place {
        number,
        name,
        is_exchange: false,
    }
}

const fn exchange(number: u8, name: &'static str) -> Place {
    Place {
        number,
        name,
        is_exchange: true,
    }
}

static PLAIN: [Place; 9] = [
    made(1, "acquire look"),
    made(2, "acquire read"),
    exchange(3, "acquire exchange"),
    made(4, "acquire write"),
    made(5, "release look"),
    made(6, "release write"),
    exchange(7, "release exchange"),
    made(8, "borrowed_indices look"),
    made(9, "is_locked look"),
];

static ROBUST: [Place; 32] = [
    made(16, "acquire look"),
    exchange(17, "acquire cell"),
    exchange(18, "acquire closing exchange"),
    made(19, "acquire bump look"),
    exchange(20, "acquire bump exchange"),
    exchange(32, "release cell"),
    made(33, "release bump look"),
    exchange(34, "release bump exchange"),
    made(35, "release lock look"),
    exchange(36, "release lock exchange"),
    made(37, "release count look"),
    made(38, "release count cell"),
    made(39, "release count bump look"),
    exchange(40, "release count bump exchange"),
    made(48, "borrowed_indices look"),
    made(49, "borrowed_indices cell"),
    made(50, "borrowed_indices bump look"),
    exchange(51, "borrowed_indices bump exchange"),
    made(64, "is_locked look"),
    made(80, "find load"),
    made(96, "recover look"),
    made(97, "recover load"),
    exchange(98, "recover exchange"),
    made(99, "recover bump look"),
    exchange(100, "recover bump exchange"),
    made(101, "recover lock look"),
    exchange(102, "recover lock exchange"),
    made(103, "recover count look"),
    made(104, "recover count cell"),
    made(105, "recover count bump look"),
    exchange(106, "recover count bump exchange"),
    made(107, "recover last look"),
];

pub fn places(kind: Kind) -> &'static [Place] {
    match kind {
        Kind::Plain => &PLAIN,
        Kind::Robust => &ROBUST,
    }
}

pub fn place(kind: Kind, number: u8) -> Option<&'static Place> {
    places(kind).iter().find(|place| place.number == number)
}
