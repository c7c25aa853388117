//! Identifiers and filter fields under an Align (01, "Identifiers and filter").

pub(crate) const STANDARD: u32 = 1;
pub(crate) const EXTENDED: u32 = 2;

const LARGEST_STANDARD_ID: u32 = 0x7FF;
const LARGEST_EXTENDED_ID: u32 = 0x1FFF_FFFF;

/// Bits `high` down to `low` of a 32-bit number.
#[derive(Clone, Copy)]
pub(crate) struct Field {
    pub(crate) high: u32,
    pub(crate) low: u32,
}

fn bits(high: u32, low: u32) -> Field {
    Field { high, low }
}

impl Field {
    pub(crate) fn mask(self) -> u32 {
        let width = self.high - self.low + 1;
        ((1 << width) - 1) << self.low
    }
}

/// One row of 01's table; `standard_data` says that bits 15..0 of the filter are for data.
struct Row {
    standard_id: Field,
    standard_filter: Field,
    standard_data: bool,
    extended_id: Field,
    extended_filter: Field,
}

fn row(align: u32) -> Row {
    let (standard_id, standard_filter, standard_data, extended_id, extended_filter) = match align {
        0 => (bits(10, 0), bits(31, 21), true, bits(28, 0), bits(31, 3)),
        1 => (bits(10, 0), bits(10, 0), false, bits(28, 0), bits(28, 0)),
        2 => (bits(28, 18), bits(28, 18), true, bits(28, 0), bits(28, 0)),
        _ => (bits(31, 21), bits(31, 21), true, bits(31, 3), bits(31, 3)),
    };
    Row {
        standard_id,
        standard_filter,
        standard_data,
        extended_id,
        extended_filter,
    }
}

fn id_field(align: u32, format: u32) -> Field {
    if format == STANDARD {
        row(align).standard_id
    } else {
        row(align).extended_id
    }
}

pub(crate) fn filter_field(align: u32, format: u32) -> Field {
    if format == STANDARD {
        row(align).standard_filter
    } else {
        row(align).extended_filter
    }
}

/// At this Align the filter's bits 15..0 meet a standard frame's data.
pub(crate) fn standard_data_compared(align: u32) -> bool {
    row(align).standard_data
}

pub(crate) fn raw_id_is_good(format: u32, id: u32) -> bool {
    match format {
        STANDARD => id <= LARGEST_STANDARD_ID,
        EXTENDED => id <= LARGEST_EXTENDED_ID,
        _ => false,
    }
}

/// A good raw identifier moved to its place under the Align.
pub(crate) fn aligned_from_raw(align: u32, format: u32, raw: u32) -> u32 {
    raw << id_field(align, format).low
}

/// None if the aligned identifier has a bit outside its field.
pub(crate) fn raw_from_aligned(align: u32, format: u32, aligned: u32) -> Option<u32> {
    let field = id_field(align, format);
    if aligned & !field.mask() == 0 {
        Some(aligned >> field.low)
    } else {
        None
    }
}
