//! Saved records of both versions: good ones, damaged ones, ones that are too large or have a digest twice.

use super::Generator;
use super::pools::filler;
use crate::items::Bytes;
use crate::shelf::{Listed, MAX_CARS};
use core_interface::CarDigest;

/// What a record has of one car, whatever the ids.
fn part((car, phones): &Listed) -> Bytes {
    let mut out = car.to_vec();
    out.push(phones.len() as u8);
    for phone in phones {
        out.push(phone.len() as u8);
        out.extend(phone);
    }
    out
}

fn version_1(car: CarDigest, phones: &[Bytes]) -> Bytes {
    [vec![1], part(&(car, phones.to_vec()))].concat()
}

fn version_2(cars: &[Listed]) -> Bytes {
    let parts: Vec<Bytes> = cars.iter().map(part).collect();
    [vec![2, cars.len() as u8], parts.concat()].concat()
}

/// The record of these cars, each with 32 ids of 32 bytes.
fn with_longest(mut cars: Vec<Listed>) -> Bytes {
    for (_, phones) in &mut cars {
        *phones = (0..32).map(|n| vec![n; 32]).collect();
    }
    version_2(&cars)
}

fn fillers(count: u8) -> Vec<Bytes> {
    (0..count).map(filler).collect()
}

impl Generator {
    /// A record in which the identified car, if there is one, has these phones, alone or among other cars.
    pub(super) fn record_with(&mut self, phones: Vec<Bytes>) -> Bytes {
        let car = crate::shelf::identified().unwrap_or([0x11; 32]);
        if self.random.flip() {
            return version_1(car, &phones);
        }
        let mut cars = self.some_cars();
        cars.retain(|listed| listed.0 != car);
        cars.truncate(MAX_CARS - 1);
        for (_, others) in &mut cars {
            if self.random.chance(1, 4) {
                *others = fillers(self.random.pick(&[31, 32]));
            }
        }
        let at = self.random.below(cars.len() as u64 + 1) as usize;
        cars.insert(at, (car, phones));
        version_2(&cars)
    }

    fn some_phones(&mut self) -> Vec<Bytes> {
        let count = 1 + self.random.below(5);
        let mut phones = Vec::new();
        for _ in 0..count {
            let phone = self.short_phone();
            if !phone.is_empty() {
                phones.push(phone);
            }
        }
        if phones.is_empty() {
            phones.push(vec![0xA1]);
        }
        phones
    }

    /// One to four different cars, some of them seen before, each with some phones.
    fn some_cars(&mut self) -> Vec<Listed> {
        let count = if self.options.one_car {
            1
        } else {
            self.random.pick(&[1, 2, 2, 3, 3, 4, 4, 4])
        };
        let mut cars = Vec::new();
        self.add_cars(&mut cars, count);
        cars
    }

    /// Further cars, up to so many.
    fn add_cars(&mut self, cars: &mut Vec<Listed>, count: usize) {
        while cars.len() < count {
            let car = self.another_than(cars);
            let phones = self.some_phones();
            cars.push((car, phones));
        }
    }

    /// A car that is not among these.
    fn another_than(&mut self, cars: &[Listed]) -> CarDigest {
        loop {
            let seen = self.car();
            let any = [self.random.pick(&[0, 0x22, 0x33, 0x44, 0x55]); 32];
            let car = self.random.pick(&[seen, seen, seen, any]);
            if cars.iter().all(|listed| listed.0 != car) {
                return car;
            }
        }
    }

    pub(super) fn record(&mut self) -> Bytes {
        if self.random.chance(2, 5) {
            self.record_of_version_1()
        } else {
            self.record_of_version_2()
        }
    }

    /// A good record of version 2 with one car.
    pub(super) fn record_of_one_car(&mut self) -> Bytes {
        let mut cars = self.some_cars();
        cars.truncate(1);
        version_2(&cars)
    }

    /// The longest record.
    pub(super) fn longest_record(&mut self) -> Bytes {
        let mut cars = self.some_cars();
        if !self.options.one_car {
            self.add_cars(&mut cars, MAX_CARS);
        }
        with_longest(cars)
    }

    /// A record of version 2 that is too large.
    pub(super) fn record_too_large(&mut self) -> Bytes {
        let mut cars = self.some_cars();
        self.make_large(&mut cars);
        version_2(&cars)
    }

    fn record_of_version_1(&mut self) -> Bytes {
        let car = self.car();
        let mut phones = self.some_phones();
        match self.random.below(20) {
            0 => {
                let longest: Vec<Bytes> = (0..32).map(|n| vec![n; 32]).collect();
                version_1(car, &longest)
            }
            1 => {
                let count = self.random.pick(&[31, 32, 33, 40, 255]);
                version_1(car, &fillers(count))
            }
            2 => {
                let repeated = self.random.pick(&phones);
                let count = self.random.pick(&[1, 2, 31, 32]);
                version_1(car, &vec![repeated; count])
            }
            3 => {
                let length = self.random.pick(&[33, 34, 255]);
                phones.push(vec![0x42; length]);
                version_1(car, &phones)
            }
            4 => {
                phones.push(Bytes::new());
                version_1(car, &phones)
            }
            5 => version_1(car, &[]),
            6 => {
                let mut other = version_1(car, &phones);
                other[33] = self.random.pick(&[0, 1, 2, 33, 255]);
                other
            }
            7 => Bytes::new(),
            8 => self.record_with(fillers(32)),
            9 => {
                // Too large and malformed: the second decides.
                let mut both = version_1(car, &vec![vec![0x42; 33]; 2]);
                both.push(0);
                both
            }
            10..=13 => {
                let whole = version_1(car, &phones);
                self.damaged(whole)
            }
            _ => version_1(car, &phones),
        }
    }

    /// Cut off, longer, with a bit or the version changed.
    fn damaged(&mut self, mut record: Bytes) -> Bytes {
        let at = self.random.below(record.len() as u64) as usize;
        match self.random.below(4) {
            0 => record.truncate(at),
            1 => record.push(self.random.pick(&[0, 1, 0xA1])),
            2 => record[at] ^= 1 << self.random.below(8),
            _ => record[0] = self.random.pick(&[0, 1, 2, 3, 255]),
        }
        record
    }

    fn record_of_version_2(&mut self) -> Bytes {
        let mut cars = self.some_cars();
        // The later kinds are of several cars.
        let kinds = if self.options.one_car { 16 } else { 28 };
        match self.random.below(kinds) {
            0 | 1 => self.gate.shelf.record(),
            2 => {
                self.make_large(&mut cars);
                version_2(&cars)
            }
            3 => {
                self.make_empty(&mut cars);
                version_2(&cars)
            }
            4 | 5 => {
                let whole = version_2(&cars);
                self.damaged(whole)
            }
            6 => {
                // Too large and malformed: the second decides.
                self.make_large(&mut cars);
                self.make_malformed(cars)
            }
            7 => {
                let mut other = version_2(&cars);
                other[1] = self.random.pick(&[0, 1, 2, 3, 4, 5, 255]);
                other
            }
            8 => self.five_cars(cars),
            9 => {
                for (_, phones) in &mut cars {
                    *phones = fillers(self.random.pick(&[1, 31, 32, 32]));
                }
                version_2(&cars)
            }
            10 => with_longest(cars),
            11 => {
                let (_, phones) = &mut cars[0];
                *phones = vec![phones[0].clone(); self.random.pick(&[2, 31, 32])];
                version_2(&cars)
            }
            12..=15 => version_2(&cars),
            16 | 17 => {
                self.make_twice(&mut cars);
                version_2(&cars)
            }
            18 => {
                self.make_twice(&mut cars);
                self.make_large(&mut cars);
                version_2(&cars)
            }
            19 => {
                self.make_twice(&mut cars);
                self.make_malformed(cars)
            }
            20 => {
                // Two digests that differ in one byte.
                self.make_twice(&mut cars);
                let at = self.random.pick(&[0, 15, 31, 31]);
                cars[0].0[at] ^= 1;
                version_2(&cars)
            }
            21 => {
                // The same phones under every car.
                let phones = self.some_phones();
                for listed in &mut cars {
                    listed.1 = phones.clone();
                }
                version_2(&cars)
            }
            22..=23 => {
                let phones = self.some_phones();
                self.record_with(phones)
            }
            _ => version_2(&cars),
        }
    }

    /// The place of one of the cars.
    fn one_of(&mut self, cars: &[Listed]) -> usize {
        self.random.below(cars.len() as u64) as usize
    }

    /// One car gets too many phones or an id that is too long.
    fn make_large(&mut self, cars: &mut [Listed]) {
        let at = self.one_of(cars);
        if self.random.flip() {
            cars[at].1 = fillers(self.random.pick(&[33, 33, 40, 255]));
        } else {
            let length = self.random.pick(&[33, 33, 34, 255]);
            cars[at].1.push(vec![0x42; length]);
        }
    }

    /// One car gets no phone or an empty id.
    fn make_empty(&mut self, cars: &mut [Listed]) {
        let at = self.one_of(cars);
        let phones = &mut cars[at].1;
        if self.random.flip() {
            phones.clear();
        } else {
            let place = self.random.below(phones.len() as u64) as usize;
            phones[place] = Bytes::new();
        }
    }

    /// One digest occurs again, beside the first or further on.
    fn make_twice(&mut self, cars: &mut Vec<Listed>) {
        if cars.len() == 1 {
            let phones = self.some_phones();
            cars.push((cars[0].0, phones));
        }
        let last = cars.len() - 1;
        let (from, to) = self.random.pick(&[(0, last), (0, 1), (last - 1, last)]);
        cars[to].0 = cars[from].0;
    }

    /// The record of the cars with something that makes it malformed, mostly behind the last car's digest.
    fn make_malformed(&mut self, mut cars: Vec<Listed>) -> Bytes {
        let last = cars.len() - 1;
        match self.random.below(4) {
            0 => cars[last].1.push(Bytes::new()),
            1 => {
                let mut short = version_2(&cars);
                short.pop();
                return short;
            }
            2 => {
                let mut longer = version_2(&cars);
                longer.push(self.random.pick(&[0, 1]));
                return longer;
            }
            _ => self.make_empty(&mut cars),
        }
        version_2(&cars)
    }

    /// A record of five cars, whole otherwise, or with a digest twice or something too large.
    fn five_cars(&mut self, mut cars: Vec<Listed>) -> Bytes {
        self.add_cars(&mut cars, 5);
        match self.random.below(4) {
            0 => self.make_twice(&mut cars),
            1 => self.make_large(&mut cars),
            _ => {}
        }
        version_2(&cars)
    }
}
