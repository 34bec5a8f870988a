//! Keys and values as `crates/jobs` draws them for the jobs `growth-*` and `deletions-*`.

const PLAIN: &[&str] = &[
    "get", "set", "add", "put", "key", "map", "row", "end", "line", "user", "node", "name", "size",
    "list", "text", "time", "path", "file", "read", "open", "find", "sort", "copy", "data", "item",
    "kind", "word", "code", "base", "next", "last", "count", "index", "value", "write", "close",
    "token", "state", "table", "entry", "start", "limit", "queue", "cache", "frame", "group",
    "order", "point", "buffer", "length", "parent", "child", "symbol", "string", "report",
    "window", "server", "client", "header", "record", "option", "signal", "format", "update",
];

const WIDE: &[&str] = &[
    "größe", "schlüssel", "café", "naïve", "élève", "garçon", "año", "señal", "λόγος", "μέρος",
    "αρχή", "τέλος", "слово", "дерево", "ключ", "имя", "名前", "文字", "木", "鍵",
];

/// A number that differs from this one in about half of its bits, and is the same each time.
fn mixed(number: u64) -> u64 {
    let mut mixed = number;
    mixed = (mixed ^ (mixed >> 30)).wrapping_mul(0xBF58_476D_1CE4_E5B9);
    mixed = (mixed ^ (mixed >> 27)).wrapping_mul(0x94D0_49BB_1331_11EB);
    mixed ^ (mixed >> 31)
}

fn plain(number: u64) -> &'static str {
    PLAIN[(number & 63) as usize]
}

fn push_joined(text: &mut String, number: u64) {
    text.push('_');
    text.push_str(plain(number));
}

/// Appends the last digits of a number.
fn push_digits(text: &mut String, digits: u32, number: u64) {
    for digit in (0..digits).rev() {
        text.push(char::from(b'0' + (number / 10u64.pow(digit) % 10) as u8));
    }
}

/// Texts by their numbers, other ones for each seed and input.
pub struct Names {
    seed: u64,
}

impl Names {
    pub fn new(seed: u64, input: u64) -> Self {
        Names { seed: mixed(seed).wrapping_add(mixed(input.wrapping_add(1))) }
    }

    fn bits(&self, number: u64) -> u64 {
        mixed(self.seed.wrapping_add(number.wrapping_mul(0x9E37_79B9_7F4A_7C15)))
    }

    fn write(&self, number: u64, text: &mut String) {
        let bits = self.bits(number);
        text.clear();
        text.push_str(plain(bits));
        match (bits >> 6) & 3 {
            0 => push_digits(text, 2, bits >> 8),
            _ => push_joined(text, bits >> 8),
        }
        match (bits >> 6) & 3 {
            0 | 1 => push_digits(text, 2, bits >> 20),
            _ => push_joined(text, bits >> 14),
        }
    }

    pub fn write_distinct(&self, number: u64, text: &mut String) {
        self.write(number, text);
        push_digits(text, 8, number);
    }

    pub fn write_rising(&self, number: u64, text: &mut String) {
        text.clear();
        push_digits(text, 8, number);
        push_joined(text, self.bits(number));
    }

    pub fn write_value(&self, number: u64, text: &mut String) {
        let bits = mixed(self.bits(number));
        text.clear();
        for place in 0..bits % 6 {
            if place > 0 {
                text.push(' ');
            }
            let bits = bits >> (8 + 10 * place);
            text.push_str(match (bits >> 6) & 7 {
                0 if bits & 1 == 0 => "\"\\\n\"",
                0 => WIDE[(bits % 20) as usize],
                _ => plain(bits),
            });
        }
    }
}

/// The numbers below a size, each once, in an order that a seed determines.
pub struct Drawn {
    seed: u64,
    size: u64,
    last: u64,
    place: u64,
}

impl Drawn {
    pub fn new(seed: u64, size: u64) -> Self {
        let last = (size + 1).next_power_of_two() - 1;
        Drawn { seed: mixed(seed), size, last, place: 0 }
    }

    fn at(&self, place: u64) -> u64 {
        let mut number = (place ^ self.seed) & self.last;
        number = number.wrapping_mul(0x9E37_79B9_7F4A_7C15) & self.last;
        number ^= number >> 7;
        number = number.wrapping_mul(0xBF58_476D_1CE4_E5B9) & self.last;
        number ^= number >> 9;
        number = number.wrapping_mul(0x94D0_49BB_1331_11EB) & self.last;
        number ^ (number >> 5)
    }
}

impl Iterator for Drawn {
    type Item = u64;

    fn next(&mut self) -> Option<u64> {
        while self.place <= self.last {
            let number = self.at(self.place);
            self.place += 1;
            if number < self.size {
                return Some(number);
            }
        }
        None
    }
}
