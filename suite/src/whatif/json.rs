//! JSON, written.

/// A text as a JSON string.
pub fn string(text: &str) -> String {
    let mut string = "\"".to_string();
    for letter in text.chars() {
        match letter {
            '"' | '\\' => string.extend(['\\', letter]),
            control if control < ' ' => string += &format!("\\u{:04x}", control as u32),
            letter => string.push(letter),
        }
    }
    string + "\""
}

/// A list of values that are JSON already.
pub fn array(values: impl IntoIterator<Item = String>) -> String {
    format!("[{}]", commas(values))
}

/// Names, each with a value that is JSON already.
pub fn object<'a>(pairs: impl IntoIterator<Item = (&'a str, String)>) -> String {
    let pair = |(name, value)| format!("{}:{}", string(name), value);
    format!("{{{}}}", commas(pairs.into_iter().map(pair)))
}

fn commas(values: impl IntoIterator<Item = String>) -> String {
    values.into_iter().collect::<Vec<String>>().join(",")
}
