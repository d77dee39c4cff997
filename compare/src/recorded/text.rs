//! The list as text. A line that begins with `#` is a comment, one with `=` a title, which the program that replays
//! the list prints, one with `<` a script, one with `>` the output that the port must write for the script above it,
//! its count included. Bytes are hexadecimal; `.` stands for seven zero bytes and `:` for six (the upper bytes of
//! most numbers), and one of them only follows a whole byte.

pub struct Case {
    /// The title or comment above it.
    pub name: String,
    pub script: Vec<u8>,
    pub output: Vec<u8>,
}

const ZEROS: [(char, usize); 2] = [('.', 7), (':', 6)];

/// Bytes as the list has them.
pub fn encode(bytes: &[u8]) -> String {
    let mut text = String::new();
    let mut rest = bytes;
    while let Some((first, after)) = rest.split_first() {
        rest = after;
        text.push_str(&format!("{first:02x}"));
        for (sign, zeros) in ZEROS {
            if rest.len() >= zeros && rest[..zeros].iter().all(|&byte| byte == 0) {
                text.push(sign);
                rest = &rest[zeros..];
                break;
            }
        }
    }
    text
}

pub fn decode(text: &str) -> Option<Vec<u8>> {
    let mut bytes = Vec::new();
    let mut signs = text.chars();
    while let Some(sign) = signs.next() {
        match ZEROS.iter().find(|zeros| zeros.0 == sign) {
            Some((_, zeros)) => bytes.resize(bytes.len() + zeros, 0),
            None => bytes.push((sign.to_digit(16)? * 16 + signs.next()?.to_digit(16)?) as u8),
        }
    }
    Some(bytes)
}

/// Reads a list; an error names the line.
pub fn read(list: &str) -> Result<Vec<Case>, String> {
    let mut cases = Vec::new();
    let mut name = String::new();
    let mut script = None;
    for (at, line) in list.lines().enumerate() {
        let wrong = || format!("line {}: not a line of the list", at + 1);
        let mut signs = line.chars();
        match signs.next() {
            None => {}
            Some('#' | '=') => name = signs.as_str().trim().into(),
            Some('<') if script.is_none() => script = Some(decode(signs.as_str()).ok_or_else(wrong)?),
            Some('>') => {
                let output = decode(signs.as_str()).ok_or_else(wrong)?;
                cases.push(Case { name: name.clone(), script: script.take().ok_or_else(wrong)?, output });
            }
            _ => return Err(wrong()),
        }
    }
    if script.is_some() { Err("the last script has no output".into()) } else { Ok(cases) }
}
