//! A station: its current record and eight kept ones.

use crate::{Language, Library, Outcome, Written, KEPT_LIMIT, RECORD_LIMIT, STATION_ROOM};

/// `qonveshir_station`: how many records are kept, under which names, and the lengths of the records,
/// the current one's first. The records' bytes lie [`RECORD_LIMIT`] apart in a buffer of
/// [`STATION_ROOM`] bytes beside it, in the same order.
#[repr(C)]
#[derive(Clone, Copy, Debug, Default, PartialEq, Eq)]
pub struct Labels {
    pub kept: u16,
    pub names: [u16; 8],
    pub lengths: [u16; 9],
}

/// A station with buffers of its own, by either library. A call that is refused alters nothing.
#[derive(Clone)]
pub struct Station<'a> {
    library: &'a dyn Library,
    labels: Labels,
    records: Vec<u8>,
}

impl<'a> Station<'a> {
    /// A station with this record, which keeps none.
    pub fn new(
        library: &'a dyn Library,
        language: Language,
        record: &[u8],
    ) -> Result<Self, Outcome> {
        let (labels, records) = (Labels::default(), vec![0; STATION_ROOM]);
        let mut station = Station { library, labels, records };
        let Station { labels, records, .. } = &mut station;
        let outcome = library.station_new(language, record, labels, records);
        match outcome.number {
            0 => Ok(station),
            _ => Err(outcome),
        }
    }

    /// Keeps the current record under a name, in place of what was there.
    pub fn keep(&mut self, name: u16) -> Outcome {
        self.library.station_keep(name, &mut self.labels, &mut self.records)
    }

    /// Makes the record that is kept under a name current; it is kept still.
    pub fn return_to(&mut self, name: u16) -> Outcome {
        self.library.station_return(name, &mut self.labels, &mut self.records)
    }

    /// Makes what a template gives for the current record current, if the pattern is bound.
    pub fn apply(
        &mut self,
        language: Language,
        pattern: &[u8],
        template: &[u8],
        allowance: u32,
    ) -> Written {
        let Station { library, labels, records } = self;
        library.station_apply(language, pattern, template, allowance, labels, records)
    }

    /// The current record.
    pub fn current(&self) -> &[u8] {
        self.record(0)
    }

    /// The names under which records are kept, in the order in which they came.
    pub fn names(&self) -> &[u16] {
        &self.labels.names[..usize::from(self.labels.kept).min(KEPT_LIMIT)]
    }

    /// The record that is kept under a name.
    pub fn kept(&self, name: u16) -> Option<&[u8]> {
        let place = self.names().iter().position(|&kept| kept == name)?;
        Some(self.record(place + 1))
    }

    fn record(&self, place: usize) -> &[u8] {
        &self.records[RECORD_LIMIT * place..][..self.labels.lengths[place].into()]
    }
}
