//! Makes test copies of a file, for the build script. README.md says what they are for.

/// A copy's name, and what is replaced in it: a text and the text in its place.
pub type TestCopy<'a> = (&'a str, &'a [(&'a str, &'a str)]);

/// Name and text of each copy. The first is made from the file, each other from the one before it.
pub fn chain<'a>(file: &str, copies: &[TestCopy<'a>]) -> Result<Vec<(&'a str, String)>, String> {
    let mut text = file.to_string();
    let mut made = Vec::new();
    for (name, replacements) in copies {
        for (old, new) in *replacements {
            text = replaced(&text, old, new).map_err(|why| format!("copy {name}: {why}"))?;
        }
        made.push((*name, text.clone()));
    }
    Ok(made)
}

/// The text with `new` in the place of `old`, which must be found exactly once.
fn replaced(text: &str, old: &str, new: &str) -> Result<String, String> {
    match (text.find(old), text.rfind(old)) {
        (None, _) => Err(format!("`{old}` is not found")),
        (first, last) if first != last => Err(format!("`{old}` is found more than once")),
        _ => Ok(text.replacen(old, new, 1)),
    }
}

#[cfg(test)]
mod tests {
    use super::*;

    const FILE: &str = "let a = 1;\nlet b = 2;\nlet c = 2;\n";

    #[test]
    fn found_once() {
        assert_eq!(replaced(FILE, "a = 1", "a = 3").unwrap(), FILE.replace("1", "3"));
    }

    #[test]
    fn not_found() {
        assert_eq!(replaced(FILE, "a = 2", "a = 3").unwrap_err(), "`a = 2` is not found");
    }

    #[test]
    fn found_twice() {
        assert_eq!(replaced(FILE, "= 2", "= 3").unwrap_err(), "`= 2` is found more than once");
        // The two places may overlap.
        assert!(replaced("aaa", "aa", "b").is_err());
    }

    #[test]
    fn no_copy() {
        assert_eq!(chain(FILE, &[]).unwrap(), []);
    }

    /// The second copy holds the replacements of the first, and may replace what these wrote.
    #[test]
    fn copies_in_order() {
        let first = ("first", &[("a = 1", "a = 3"), ("b = 2", "b = 4")][..]);
        let second = ("second", &[("a = 3", "a = 5"), ("= 2", "= 6")][..]);
        let made = chain(FILE, &[first, second]).unwrap();
        let texts =
            ["let a = 3;\nlet b = 4;\nlet c = 2;\n", "let a = 5;\nlet b = 4;\nlet c = 6;\n"];
        assert_eq!(made, [("first", texts[0].to_string()), ("second", texts[1].to_string())]);
        // Alone, or the other way round, the second does not find its texts once.
        assert_eq!(chain(FILE, &[second, first]).unwrap_err(), "copy second: `a = 3` is not found");
    }
}
