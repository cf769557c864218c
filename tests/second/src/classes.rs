//! Byte classes of names and values, each from its list.

/// RFC 9110, section 5.6.2: tchar.
const TOKEN: &[u8] = b"!#$%&'*+-.^_`|~0123456789abcdefghijklmnopqrstuvwxyzABCDEFGHIJKLMNOPQRSTUVWXYZ";

const CAPITAL: &[u8] = b"ABCDEFGHIJKLMNOPQRSTUVWXYZ";

const DIGIT: &[u8] = b"0123456789";

/// 09 and 20 to 7E.
const PLAIN: &[u8] = b"\t !\"#$%&'()*+,-./0123456789:;<=>?@ABCDEFGHIJKLMNOPQRSTUVWXYZ[\\]^_`\
abcdefghijklmnopqrstuvwxyz{|}~";

const BLANK: &[u8] = b" \t";

pub fn is_token(byte: u8) -> bool {
    TOKEN.contains(&byte)
}

pub fn is_name(byte: u8) -> bool {
    is_token(byte) && !CAPITAL.contains(&byte)
}

pub fn is_value(byte: u8) -> bool {
    PLAIN.contains(&byte) || byte >= 0x80
}

pub fn is_blank(byte: u8) -> bool {
    BLANK.contains(&byte)
}

pub fn is_digit(byte: u8) -> bool {
    DIGIT.contains(&byte)
}
