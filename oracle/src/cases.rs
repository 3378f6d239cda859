//! Reads a case and writes an answer's values, in the form of docs/CASES.md. Knows nothing of rgrow.

/// Why a case is not put to the Rust.
pub enum Stop {
    /// The line is no case, or a field is missing or not of its kind.
    Unreadable,
    /// The Rust has no such call, or cannot be handed such an argument.
    NoSuchCall,
}

/// A question to the Rust, which may panic, and the answer line that it gives.
pub type Asked = Box<dyn FnOnce() -> String>;

pub struct Case<'a> {
    pub call: &'a [u8],
    fields: Vec<(&'a [u8], &'a [u8])>,
}

impl<'a> Case<'a> {
    pub fn read(line: &'a [u8]) -> Result<Self, Stop> {
        let mut words = line.split(|&byte| byte == b' ');
        let call = words.next().ok_or(Stop::Unreadable)?;
        let fields = words
            .filter_map(|word| {
                let end = word.iter().position(|&byte| byte == b'=')?;
                Some((&word[..end], &word[end + 1..]))
            })
            .collect();
        Ok(Case { call, fields })
    }

    fn value(&self, key: &str) -> Result<&'a [u8], Stop> {
        let found = self.fields.iter().find(|(name, _)| *name == key.as_bytes());
        found.map(|(_, value)| *value).ok_or(Stop::Unreadable)
    }

    pub fn text(&self, key: &str) -> Result<Vec<u8>, Stop> {
        text(self.value(key)?).ok_or(Stop::Unreadable)
    }

    pub fn float(&self, key: &str) -> Result<f64, Stop> {
        float(self.value(key)?).ok_or(Stop::Unreadable)
    }

    pub fn number(&self, key: &str) -> Result<u64, Stop> {
        number(self.value(key)?).ok_or(Stop::Unreadable)
    }

    /// What a field holds, or `missing` where the case does not have it.
    pub fn or<T>(&self, key: &str, read: fn(&Self, &str) -> Result<T, Stop>, missing: T) -> Result<T, Stop> {
        let there = self.fields.iter().any(|(name, _)| *name == key.as_bytes());
        if there {
            read(self, key)
        } else {
            Ok(missing)
        }
    }

    pub fn list<T>(&self, key: &str, item: fn(&[u8]) -> Option<T>) -> Result<Vec<T>, Stop> {
        let value = self.value(key)?;
        let items = value.split(|&byte| byte == b',').filter(|_| !value.is_empty());
        items.map(item).collect::<Option<_>>().ok_or(Stop::Unreadable)
    }
}

/// The Rust takes `str`, so bytes that are no UTF-8 cannot be put to it. Call it after all fields are read.
pub fn utf8(bytes: Vec<u8>) -> Result<String, Stop> {
    String::from_utf8(bytes).map_err(|_| Stop::NoSuchCall)
}

pub fn number(value: &[u8]) -> Option<u64> {
    let plain = (1..=20).contains(&value.len()) && value.iter().all(u8::is_ascii_digit);
    std::str::from_utf8(value).ok().filter(|_| plain)?.parse().ok()
}

pub fn byte(value: &[u8]) -> Option<u8> {
    number(value)?.try_into().ok()
}

/// Hexadecimal digits in lower case, and no other sign.
fn hex(digits: &[u8]) -> Option<u64> {
    digits.iter().try_fold(0, |sum, &digit| {
        let upper = digit.is_ascii_uppercase();
        let digit = (digit as char).to_digit(16).filter(|_| !upper)?;
        Some(sum << 4 | digit as u64)
    })
}

pub fn float(value: &[u8]) -> Option<f64> {
    let bits = hex(value).filter(|_| value.len() == 16)?;
    Some(f64::from_bits(bits))
}

/// A byte that stands for itself in a text.
fn is_plain(byte: u8) -> bool {
    (0x21..=0x7e).contains(&byte) && byte != b'%' && byte != b','
}

pub fn text(value: &[u8]) -> Option<Vec<u8>> {
    let mut bytes = Vec::with_capacity(value.len());
    let mut rest = value;
    while let [first, after @ ..] = rest {
        rest = after;
        match first {
            b'%' => {
                let byte = hex(rest.get(..2)?)? as u8;
                bytes.push(Some(byte).filter(|&byte| !is_plain(byte))?);
                rest = &rest[2..];
            }
            _ => bytes.push(Some(*first).filter(|&byte| is_plain(byte))?),
        }
    }
    Some(bytes)
}

/// A text of an answer.
pub fn written(text: &[u8]) -> String {
    let plain = |byte: u8| (0x21..=0x7e).contains(&byte) && byte != b'%' && byte != b',';
    let sign = |&byte: &u8| if plain(byte) { char::from(byte).to_string() } else { format!("%{byte:02x}") };
    text.iter().map(sign).collect()
}

/// A list of an answer.
pub fn listed<T: ToString>(items: &[T]) -> String {
    items.iter().map(T::to_string).collect::<Vec<_>>().join(",")
}

/// A float of an answer.
pub fn bits(value: f64) -> String {
    if value.is_nan() {
        "nan".to_string()
    } else {
        format!("{:016x}", value.to_bits())
    }
}
