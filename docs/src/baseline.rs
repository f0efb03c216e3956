//! The program of the yardstick: reads records by the library `cards.rs` and prints one number that every answer goes into.
//! It starts as a C program does, so that no start of a Rust program runs: not every emulator gets through one.

#![no_main]

use cards::{Contract, ContractList, Data, Data42, Data50, Kind, Refusal, Tally, read_contract, read_list};
use std::io::{self, Read};

struct Digest(u64);

impl Digest {
    fn accepted() -> Digest {
        let mut digest = Digest(1);
        digest.add([0, 0, 0]);
        digest
    }

    fn add<const COUNT: usize>(&mut self, numbers: [u32; COUNT]) {
        self.add_words(numbers.map(u64::from));
    }

    fn add_words<const COUNT: usize>(&mut self, words: [u64; COUNT]) {
        for word in words {
            self.0 = self.0.wrapping_mul(33).wrapping_add(word);
        }
    }
}

fn answer_digest<T>(answer: &Result<T, Refusal>, value_digest: fn(&T) -> u64) -> u64 {
    match answer {
        Ok(value) => value_digest(value),
        Err(refusal) => {
            let mut digest = Digest(1);
            digest.add([refusal.number, refusal.place, refusal.field]);
            digest.0
        }
    }
}

fn list_digest(list: &ContractList) -> u64 {
    let mut digest = Digest::accepted();
    digest.add([list.count]);
    for entry in &list.entries {
        digest.add([entry.bitmap, entry.network, entry.key, entry.kind, entry.priority, entry.pointer]);
    }
    let Tally { counter, plain } = &list.tally;
    digest.add([counter.used, plain.used, counter.spent, plain.spent]);
    digest.0
}

fn contract_digest(contract: &Contract) -> u64 {
    let mut digest = Digest::accepted();
    digest.add([contract.bitmap, contract.provider, contract.tariff, contract.serial, contract.class]);
    digest.add([contract.validity, contract.start, contract.end, contract.status]);
    match &contract.data {
        Data::Nothing => digest.add([0]),
        Data::Carnet(data) => add_data_42(&mut digest, data),
        Data::Urban(data) => add_data_50(&mut digest, data),
    }
    digest.add_words(contract.margin);
    digest.0
}

fn add_data_42(digest: &mut Digest, data: &Data42) {
    digest.add([0x42, data.pay_method, data.price, data.sale_date, data.sale_minute, data.agent, data.device]);
    digest.add([data.receipt, data.passengers, data.inhibition_end]);
}

fn add_data_50(digest: &mut Digest, data: &Data50) {
    digest.add([0x50, data.end, data.grey_list, data.chrono, data.flag, data.groups]);
    digest.add([data.agent, data.origin, data.destination, data.via]);
    digest.add(data.tokens);
    digest.add(data.autoload);
    digest.add([data.balance, data.last_debit, data.purse, data.purse_debit]);
    digest.add([data.passengers, data.period_end, data.period_balance]);
    digest.add(data.zones);
    digest.add([data.sections, data.sections_left]);
    digest.add(data.stops);
    digest.add(data.lines);
    digest.add([data.weekly_limits, data.start, data.end_minute, data.token, data.intermodal]);
}

fn unit_digest(unit: &[u8]) -> u64 {
    let Some((&operation, record)) = unit.split_first() else { return 0 };
    let Ok(record) = record.try_into() else { return 0 };
    let kind = match operation {
        0 => return answer_digest(&read_list(record), list_digest),
        1 => Kind::Carnet,
        2 => Kind::Urban,
        _ => return 0,
    };
    answer_digest(&read_contract(record, kind), contract_digest)
}

/// Standard input: bytes in a unit and rounds, two bytes each and high first, then the units. A unit is an operation's
/// number (0 contract list, 1 contract of type 42h, 2 of type 50h) and a record. Prints the sum of all digests.
fn run() -> io::Result<()> {
    let mut input = Vec::new();
    io::stdin().read_to_end(&mut input)?;
    let Some((&[size_high, size_low, rounds_high, rounds_low], units)) = input.split_first_chunk() else {
        return Err(io::ErrorKind::UnexpectedEof.into());
    };
    let size = usize::from(u16::from_be_bytes([size_high, size_low]));
    let rounds = u16::from_be_bytes([rounds_high, rounds_low]);
    let mut sum = 0u64;
    for _ in 0..rounds {
        for unit in units.chunks_exact(size) {
            sum = sum.wrapping_add(unit_digest(unit));
        }
    }
    println!("{sum}");
    Ok(())
}

#[unsafe(no_mangle)]
pub extern "C" fn main() -> i32 {
    run().is_err().into()
}
