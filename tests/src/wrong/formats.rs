//! Other ways to tell the formats apart, and other delays.

use super::{readings, rules};
use crate::model::format::{Formats, MAX_JIFFIES};
use crate::model::{number, require, Document, Format, Jiffies, Milliseconds, Refusal};

rules! { Formats;
    OtherTold: told(number: u32) -> Format;
    OtherOfMagic: of_magic(magic: u16) -> Option<Format>;
    OtherMilliseconds: milliseconds(jiffies: Jiffies) -> Milliseconds;
    OtherJiffies: jiffies(milliseconds: Milliseconds) -> Jiffies;
    OtherFits: fits(jiffies: Jiffies) -> Result<(), Refusal>;
    OtherInMilliseconds: in_milliseconds(jiffies: Jiffies) -> Result<Milliseconds, Refusal>;
    OtherInJiffies: in_jiffies(milliseconds: Milliseconds) -> Result<Jiffies, Refusal>;
}

// What every call that is told a format, or handed a record with one, can do wrong.
readings! { TOLD: Formats;
    Only1IsFli = OtherTold(|number| if number == 1 { Format::Fli } else { Format::Flc });
    FormatOfOneByte = OtherTold(|number| Document.told(number & 0xFF));
    FormatOfLowestBit = OtherTold(|number| Document.told(number & 1));
    FormatIgnored = OtherTold(|_| Format::Flc);
}

// What every call that goes by the magic can do wrong.
readings! { MAGIC: Formats;
    FliRefused = OtherOfMagic(|magic| Document.of_magic(magic).filter(|format| *format == Format::Flc));
    FliForFlc = OtherOfMagic(|magic| Document.of_magic(magic).map(|_| Format::Flc));
    Af13IsFli = OtherOfMagic(|magic| Document.of_magic(if magic == 0xAF13 { 0xAF11 } else { magic }));
}

// What the formulas can do wrong, wherever they are used.
readings! { FROM_JIFFIES: Formats;
    JiffiesRoundedUp = OtherMilliseconds(|Jiffies(j)| Milliseconds((1_000 * j).div_ceil(70)));
    JiffiesRounded = OtherMilliseconds(|Jiffies(j)| Milliseconds((1_000 * j + 35) / 70));
    JiffiesOf14Milliseconds = OtherMilliseconds(|Jiffies(j)| Milliseconds(14 * j));
    JiffiesNotConverted = OtherMilliseconds(|Jiffies(j)| Milliseconds(j));
}

// What the calls on delays can do wrong besides.
readings! { DELAYS: Formats;
    MillisecondsRoundedDown = OtherJiffies(|Milliseconds(m)| Jiffies(70 * m / 1_000));
    MillisecondsRounded = OtherJiffies(|Milliseconds(m)| Jiffies((70 * m + 500) / 1_000));
    MillisecondsBy14 = OtherJiffies(|Milliseconds(m)| Jiffies(m.div_ceil(14)));
    MillisecondsNotConverted = OtherJiffies(|Milliseconds(m)| Jiffies(m));
    MillisecondsOf32Bits = OtherJiffies(|Milliseconds(m)| {
        Jiffies(u64::from(70_u32.wrapping_mul(m as u32)).div_ceil(1_000))
    });
    JiffiesUpTo65536 = OtherFits(|Jiffies(j)| require(j <= MAX_JIFFIES + 1, number::BAD_FILE_HEADER, 0));
    JiffiesUpTo65534 = OtherFits(|Jiffies(j)| require(j < MAX_JIFFIES, number::BAD_FILE_HEADER, 0));
    LongJiffiesInMilliseconds = OtherInMilliseconds(|jiffies| Ok(Document.milliseconds(jiffies)));
    LongMillisecondsInJiffies = OtherInJiffies(|milliseconds| Ok(Document.jiffies(milliseconds)));
    LongMillisecondsAreTheMost = OtherInJiffies(|milliseconds| {
        Ok(Jiffies(Document.jiffies(milliseconds).0.min(MAX_JIFFIES)))
    });
    MillisecondsOver65535Refused = OtherInJiffies(|Milliseconds(m)| {
        require(m <= 65_535, number::BAD_FILE_HEADER, 0)?;
        Document.in_jiffies(Milliseconds(m))
    });
}
