//! JSON strings that stand for bytes, as the vector files have them for the
//! program's input and output. A character below 256 is the byte of that
//! number; there are no others. Nothing else of JSON is needed.

/// The bytes that a JSON string, quotes included, stands for.
pub fn string_bytes(text: &str) -> Result<Vec<u8>, String> {
    let inner = text
        .strip_prefix('"')
        .and_then(|rest| rest.strip_suffix('"'))
        .ok_or("no quotes around a string")?;
    let mut bytes = Vec::new();
    let mut characters = inner.chars();
    while let Some(character) = characters.next() {
        let meant = match character {
            '\\' => read_escape(&mut characters)?,
            '"' => return Err("a bare quote in a string".to_string()),
            plain => plain as u32,
        };
        let byte = u8::try_from(meant).map_err(|_| format!("character {} is no byte", meant))?;
        bytes.push(byte);
    }
    Ok(bytes)
}

/// The character that an escape means, read from behind the backslash on.
fn read_escape(characters: &mut std::str::Chars) -> Result<u32, String> {
    let letter = characters.next().ok_or("a backslash at the end")?;
    let meant = match letter {
        '"' | '\\' | '/' => letter as u32,
        'b' => 8,
        't' => 9,
        'n' => 10,
        'f' => 12,
        'r' => 13,
        'u' => read_hexadecimal(characters)?,
        other => return Err(format!("unknown escape {:?}", other)),
    };
    Ok(meant)
}

/// Four hexadecimal digits.
fn read_hexadecimal(characters: &mut std::str::Chars) -> Result<u32, String> {
    let mut number = 0;
    for _ in 0..4 {
        let digit = characters.next().and_then(|digit| digit.to_digit(16));
        number = 16 * number + digit.ok_or("a bad hexadecimal digit")?;
    }
    Ok(number)
}
