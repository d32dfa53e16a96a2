//! `itoa`, digit by digit.
pub trait Integer: Copy {
    /// Puts the number's text at the end of the bytes, and answers where it begins.
    fn put(self, text: &mut [u8; 24]) -> usize;
}

/// Puts a number's digits, and its sign, at the end of the bytes.
fn put(number: i128, text: &mut [u8; 24]) -> usize {
    let mut rest = u64::try_from(number.unsigned_abs()).unwrap();
    let mut at = text.len();
    loop {
        at -= 1;
        text[at] = b'0' + (rest % 10) as u8;
        rest /= 10;
        if rest == 0 {
            break;
        }
    }
    if number < 0 {
        at -= 1;
        text[at] = b'-';
    }
    at
}

macro_rules! integers {
    ($($kind:ty)*) => {$(
        impl Integer for $kind {
            fn put(self, text: &mut [u8; 24]) -> usize {
                put(self as i128, text)
            }
        }
    )*};
}

integers!(i32 i64 i128 u32 u64 usize);

pub struct Buffer([u8; 24]);

impl Buffer {
    pub fn new() -> Buffer {
        Buffer([0; 24])
    }

    pub fn format<I: Integer>(&mut self, number: I) -> &str {
        let at = number.put(&mut self.0);
        ::std::str::from_utf8(&self.0[at..]).unwrap()
    }
}
