//! A message as numbers, text and entries, as the archive takes and gives it.
use crate::ffi::{NUMBERS, READING, READING_NUMBERS};

/// A message for the archive.
pub(crate) struct Numbers<'a> {
    numbers: [u64; NUMBERS],
    count: usize,
    /// The name, URL, sample bytes or file data.
    pub(crate) text: &'a [u8],
    /// The tunings, note changes or bank maps.
    pub(crate) entries: Vec<u64>,
}

impl<'a> Numbers<'a> {
    /// The numbers of a message for a device, its head and fields to follow.
    pub(crate) fn new(device: u64) -> Self {
        let mut numbers = [0; NUMBERS];
        numbers[1] = device;
        Self { numbers, count: 2, text: &[], entries: Vec::new() }
    }

    /// Sets the head code.
    pub(crate) fn head(&mut self, code: u64) {
        self.numbers[0] = code;
    }

    /// Appends a field.
    pub(crate) fn put(&mut self, field: impl Into<u64>) {
        self.numbers[self.count] = field.into();
        self.count += 1;
    }

    /// Appends a signed field, in two's complement.
    pub(crate) fn put_signed(&mut self, field: impl Into<i64>) {
        self.put(field.into() as u64);
    }

    /// The numbers so far.
    pub(crate) fn numbers(&self) -> &[u64] {
        &self.numbers[..self.count]
    }
}

/// A message as the archive has read it; fields are taken in their order.
pub(crate) struct Fields<'a> {
    numbers: std::slice::Iter<'a, u64>,
    text: &'a [u8],
    data: &'a [u8],
    entries: &'a [u64],
    places: usize,
}

impl<'a> Fields<'a> {
    /// The message that a reading of a frame answered.
    pub(crate) fn of(frame: &'a [u8], data: &'a [u8], entries: &'a [u64], answer: &'a [u64; READING]) -> Option<Self> {
        let [count, start, length, places] = [answer[0], answer[1], answer[2], answer[3]];
        let numbers = answer[READING_NUMBERS..].get(..usize::try_from(count).ok()?)?;
        let (start, length) = (usize::try_from(start).ok()?, usize::try_from(length).ok()?);
        Some(Self {
            numbers: numbers.iter(),
            text: frame.get(start..start.checked_add(length)?)?,
            data,
            entries,
            places: usize::try_from(places).ok()?,
        })
    }

    /// The next number.
    pub(crate) fn take<T: TryFrom<u64>>(&mut self) -> Option<T> {
        T::try_from(*self.numbers.next()?).ok()
    }

    /// The next number, which is signed.
    pub(crate) fn take_signed<T: TryFrom<i64>>(&mut self) -> Option<T> {
        T::try_from(*self.numbers.next()? as i64).ok()
    }

    /// The next number, which is 0 or 1.
    pub(crate) fn take_flag(&mut self) -> Option<bool> {
        Some(self.take::<u8>()? == 1)
    }

    /// The next twelve numbers, which are signed.
    pub(crate) fn take_scale<T: TryFrom<i64> + Copy + Default>(&mut self) -> Option<[T; 12]> {
        let mut scale = [T::default(); 12];
        for note in &mut scale {
            *note = self.take_signed()?;
        }
        Some(scale)
    }

    /// The name, URL or sample bytes.
    pub(crate) fn text(&self) -> Vec<u8> {
        self.text.to_vec()
    }

    /// The name of sixteen bytes.
    pub(crate) fn name(&self) -> Option<[u8; 16]> {
        self.text.try_into().ok()
    }

    /// The file data.
    pub(crate) fn data(&self) -> Option<Vec<u8>> {
        Some(self.data.get(..self.places)?.to_vec())
    }

    /// The entries.
    pub(crate) fn entries(&self) -> Option<&'a [u64]> {
        self.entries.get(..self.places)
    }
}
