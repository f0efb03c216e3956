//! The yardstick of `./bench`, a library: reads contract lists (N = 8, C = 4) and contracts of types 42h and 50h as a careful
//! Rust programmer would: field by field, each with its rank, its room and its rule, in the order of document 01. A record is
//! copied once into a buffer with zeros after it; a field is cut out of the 64 bits from its byte on.

pub const RECORD: usize = 29;
const RECORD_BITS: u32 = 232;
const POSITIONS: usize = 8;
const COUNTERS: u32 = 4;
const MARGIN_WORDS: usize = 4;
const LAST_MINUTE: u32 = 1439;
const UNDEFINED_PRIORITY: u32 = 13;
const USED_UP: u32 = 15;

const PAST_THE_END: u32 = 2;
const OUT_OF_RANGE: u32 = 4;
const ONE_AFTER: u32 = 5;
const LIST_RULE: u32 = 6;

pub struct Refusal {
    pub number: u32,
    pub place: u32,
    pub field: u32,
}

#[cold]
fn refused<T>(number: u32, place: u32, field: u32) -> Result<T, Refusal> {
    Err(Refusal { number, place, field })
}

// ---------------------------------------------------------------- Bits

/// A record with zeros after it: eight bytes from every byte that the record has, and whole words to the end.
type Padded = [u8; 40];

fn padded(record: &[u8; RECORD]) -> Padded {
    let mut bytes = [0; 40];
    bytes[..RECORD].copy_from_slice(record);
    bytes
}

/// The bit reached in a record.
struct Walk<'a> {
    bytes: &'a Padded,
    place: u32,
}

impl Walk<'_> {
    /// The bits from the place on, at least 57.
    fn window(&self) -> u64 {
        let byte = self.place as usize / 8;
        u64::from_be_bytes(self.bytes[byte..byte + 8].try_into().unwrap()) << (self.place % 8)
    }

    /// The next field, where it lies inside the record.
    fn field(&mut self, rank: u32, width: u32) -> Result<u32, Refusal> {
        if self.place + width > RECORD_BITS {
            return refused(PAST_THE_END, self.place, rank);
        }
        let number = self.window() >> (64 - width);
        self.place += width;
        Ok(number as u32)
    }

    fn field_if(&mut self, present: bool, rank: u32, width: u32) -> Result<u32, Refusal> {
        if present { self.field(rank, width) } else { Ok(0) }
    }

    fn minute_if(&mut self, present: bool, rank: u32) -> Result<u32, Refusal> {
        let place = self.place;
        let minute = self.field_if(present, rank, 11)?;
        if minute > LAST_MINUTE {
            return refused(OUT_OF_RANGE, place, rank);
        }
        Ok(minute)
    }

    /// What stands after the last field, where it stands: zeros in every field's place.
    fn margin(&self) -> [u64; MARGIN_WORDS] {
        std::array::from_fn(|index| {
            let word = u64::from_be_bytes(self.bytes[8 * index..8 * index + 8].try_into().unwrap());
            let before = self.place.saturating_sub(64 * index as u32);
            word & u64::MAX.checked_shr(before).unwrap_or(0)
        })
    }

    /// After the last field of a list every bit is zero to the end.
    fn check_rest(&self) -> Result<(), Refusal> {
        let mut place = self.place;
        while place < RECORD_BITS {
            let window = Walk { place, ..*self }.window();
            if window != 0 {
                return refused(ONE_AFTER, place + window.leading_zeros(), 0);
            }
            place = place / 8 * 8 + 64;
        }
        Ok(())
    }
}

fn has(bitmap: u32, element: u32) -> bool {
    bitmap >> element & 1 != 0
}

// ---------------------------------------------------------------- Contract list

#[derive(Clone, Copy, Default)]
pub struct Entry {
    pub bitmap: u32,
    pub network: u32,
    pub key: u32,
    pub kind: u32,
    pub priority: u32,
    pub pointer: u32,
}

/// The positions of one kind: bit p - 1 of `used` is set for each pointer p in use, and `spent` entries are used up.
#[derive(Default)]
pub struct Positions {
    pub used: u32,
    pub spent: u32,
}

#[derive(Default)]
pub struct Tally {
    pub counter: Positions,
    pub plain: Positions,
}

impl Tally {
    fn add(&mut self, entry: &Entry) {
        let positions = if entry.pointer <= COUNTERS { &mut self.counter } else { &mut self.plain };
        positions.used |= 1 << entry.pointer >> 1;
        positions.spent += u32::from(entry.priority == USED_UP);
    }
}

#[derive(Default)]
pub struct ContractList {
    pub count: u32,
    pub entries: [Entry; POSITIONS],
    pub tally: Tally,
}

/// Tariff and pointer, which each entry must have.
const COMPLETE: u32 = 0b110;
/// Bit p is set for each pointer p that no entry can have.
const NO_POINTERS: u32 = !0b1_1111_1110;

pub fn read_list(record: &[u8; RECORD]) -> Result<ContractList, Refusal> {
    let bytes = padded(record);
    let mut walk = Walk { bytes: &bytes, place: 0 };
    let mut list = ContractList { count: walk.field(0, 4)?, ..Default::default() };
    let Some(counted) = list.entries.get_mut(..list.count as usize) else {
        return refused(OUT_OF_RANGE, 0, 0);
    };
    let mut taken = NO_POINTERS;
    let mut broken = 0;
    for (number, entry) in (1..).zip(counted) {
        read_entry(&mut walk, 4 * number - 3, entry)?;
        if broken == 0 && (entry.bitmap & COMPLETE != COMPLETE || has(taken, entry.pointer)) {
            broken = number;
        }
        taken |= 1 << entry.pointer;
        list.tally.add(entry);
    }
    walk.check_rest()?;
    if broken != 0 {
        return refused(LIST_RULE, broken, 0);
    }
    Ok(list)
}

/// An entry whose bitmap has this rank.
fn read_entry(walk: &mut Walk, rank: u32, entry: &mut Entry) -> Result<(), Refusal> {
    entry.bitmap = walk.field(rank, 3)?;
    entry.network = walk.field_if(has(entry.bitmap, 0), rank + 1, 24)?;
    if has(entry.bitmap, 1) {
        let place = walk.place;
        let tariff = walk.field(rank + 2, 16)?;
        entry.key = tariff >> 12;
        entry.kind = tariff >> 4 & 255;
        entry.priority = tariff & 15;
        if entry.priority == UNDEFINED_PRIORITY {
            return refused(OUT_OF_RANGE, place, rank + 2);
        }
    }
    entry.pointer = walk.field_if(has(entry.bitmap, 2), rank + 3, 5)?;
    Ok(())
}

// ---------------------------------------------------------------- Contract

pub enum Data {
    Nothing,
    Carnet(Data42),
    Urban(Data50),
}

pub struct Contract {
    pub bitmap: u32,
    pub provider: u32,
    pub tariff: u32,
    pub serial: u32,
    pub class: u32,
    pub validity: u32,
    pub start: u32,
    pub end: u32,
    pub status: u32,
    pub data: Data,
    pub margin: [u64; MARGIN_WORDS],
}

pub struct Data42 {
    pub pay_method: u32,
    pub price: u32,
    pub sale_date: u32,
    pub sale_minute: u32,
    pub agent: u32,
    pub device: u32,
    pub receipt: u32,
    pub passengers: u32,
    pub inhibition_end: u32,
}

#[derive(Default)]
pub struct Data50 {
    pub end: u32,
    pub grey_list: u32,
    pub chrono: u32,
    pub flag: u32,
    pub groups: u32,
    pub agent: u32,
    pub origin: u32,
    pub destination: u32,
    pub via: u32,
    pub tokens: [u32; 2],
    pub autoload: [u32; 2],
    pub balance: u32,
    pub last_debit: u32,
    pub purse: u32,
    pub purse_debit: u32,
    pub passengers: u32,
    pub period_end: u32,
    pub period_balance: u32,
    pub zones: [u32; 3],
    pub sections: u32,
    pub sections_left: u32,
    pub stops: [u32; 4],
    pub lines: [u32; 2],
    pub weekly_limits: u32,
    pub start: u32,
    pub end_minute: u32,
    pub token: u32,
    pub intermodal: u32,
}

#[derive(Clone, Copy, PartialEq)]
pub enum Kind {
    Carnet,
    Urban,
}

pub fn read_contract(record: &[u8; RECORD], kind: Kind) -> Result<Contract, Refusal> {
    let bytes = padded(record);
    let mut walk = Walk { bytes: &bytes, place: 0 };
    let mut contract = read_head(&mut walk)?;
    if has(contract.bitmap, 6) {
        contract.data = match kind {
            Kind::Carnet => Data::Carnet(read_data_42(&mut walk)?),
            Kind::Urban => Data::Urban(read_data_50(&mut walk)?),
        };
    }
    contract.margin = walk.margin();
    Ok(contract)
}

fn read_head(walk: &mut Walk) -> Result<Contract, Refusal> {
    let bitmap = walk.field(0, 7)?;
    let provider = walk.field_if(has(bitmap, 0), 1, 8)?;
    let tariff = walk.field_if(has(bitmap, 1), 2, 16)?;
    let serial = walk.field_if(has(bitmap, 2), 3, 32)?;
    let class = walk.field_if(has(bitmap, 3), 4, 8)?;
    let validity = walk.field_if(has(bitmap, 4), 5, 2)?;
    let start = walk.field_if(has(validity, 0), 6, 14)?;
    let end = walk.field_if(has(validity, 1), 7, 14)?;
    let status = walk.field_if(has(bitmap, 5), 8, 8)?;
    let (data, margin) = (Data::Nothing, [0; MARGIN_WORDS]);
    Ok(Contract { bitmap, provider, tariff, serial, class, validity, start, end, status, data, margin })
}

fn read_data_42(walk: &mut Walk) -> Result<Data42, Refusal> {
    Ok(Data42 {
        pay_method: walk.field(9, 11)?,
        price: walk.field(10, 16)?,
        sale_date: walk.field(11, 14)?,
        sale_minute: walk.minute_if(true, 12)?,
        agent: walk.field(13, 8)?,
        device: walk.field(14, 16)?,
        receipt: walk.field(15, 1)?,
        passengers: walk.field(16, 8)?,
        inhibition_end: walk.field(17, 14)?,
    })
}

fn read_data_50(walk: &mut Walk) -> Result<Data50, Refusal> {
    let mut data = Data50 {
        end: walk.field(9, 14)?,
        grey_list: walk.field(10, 14)?,
        chrono: walk.field(11, 16)?,
        flag: walk.field(12, 2)?,
        groups: walk.field(13, 16)?,
        ..Default::default()
    };
    read_groups_0_to_5(walk, &mut data)?;
    read_groups_6_to_10(walk, &mut data)?;
    read_groups_11_to_15(walk, &mut data)?;
    Ok(data)
}

fn read_groups_0_to_5(walk: &mut Walk, data: &mut Data50) -> Result<(), Refusal> {
    data.agent = walk.field_if(has(data.groups, 0), 14, 8)?;
    if has(data.groups, 1) {
        data.origin = walk.field(15, 14)?;
        data.destination = walk.field(16, 14)?;
        data.via = walk.field(17, 14)?;
    }
    if has(data.groups, 2) {
        data.tokens = [walk.field(18, 16)?, walk.field(19, 16)?];
        data.autoload = [walk.field(20, 14)?, walk.field(21, 14)?];
    }
    if has(data.groups, 3) {
        data.balance = walk.field(22, 8)?;
        data.last_debit = walk.field(23, 5)?;
    }
    if has(data.groups, 4) {
        data.purse = walk.field(24, 19)?;
        data.purse_debit = walk.field(25, 16)?;
    }
    data.passengers = walk.field_if(has(data.groups, 5), 26, 6)?;
    Ok(())
}

fn read_groups_6_to_10(walk: &mut Walk, data: &mut Data50) -> Result<(), Refusal> {
    if has(data.groups, 6) {
        data.period_end = walk.field(27, 14)?;
        data.period_balance = walk.field(28, 6)?;
    }
    if has(data.groups, 7) {
        data.zones = [walk.field(29, 6)?, walk.field(30, 6)?, walk.field(31, 6)?];
    }
    if has(data.groups, 8) {
        data.sections = walk.field(32, 6)?;
        data.sections_left = walk.field(33, 6)?;
    }
    if has(data.groups, 9) {
        data.stops = [walk.field(34, 14)?, walk.field(35, 14)?, walk.field(36, 14)?, walk.field(37, 14)?];
    }
    if has(data.groups, 10) {
        data.lines = [walk.field(38, 14)?, walk.field(39, 14)?];
    }
    Ok(())
}

fn read_groups_11_to_15(walk: &mut Walk, data: &mut Data50) -> Result<(), Refusal> {
    data.weekly_limits = walk.field_if(has(data.groups, 11), 40, 14)?;
    data.start = walk.field_if(has(data.groups, 12), 41, 14)?;
    data.end_minute = walk.minute_if(has(data.groups, 13), 42)?;
    data.token = walk.field_if(has(data.groups, 14), 43, 4)?;
    data.intermodal = walk.field_if(has(data.groups, 15), 44, 4)?;
    Ok(())
}
