//! The arguments of the benchmark: what to measure, or why they cannot be read.

const USAGE: &str = "\
usage: bench [--smoke] [--growth] [ROW]
  --smoke   three rounds only, to see that the rows still work
  --growth  other rows: how the cost grows with states and with nodes
  ROW       only the rows whose names start so";

#[derive(Debug, Default, PartialEq, Eq)]
pub struct Arguments {
    pub smoke: bool,
    pub growth: bool,
    /// What the names of the rows start with; empty for all rows.
    pub row: String,
}

/// Reads the words after the program's name, or says why not.
pub fn read(words: impl IntoIterator<Item = String>) -> Result<Arguments, String> {
    let mut arguments = Arguments::default();
    for word in words {
        match word.as_str() {
            "--smoke" => arguments.smoke = true,
            "--growth" => arguments.growth = true,
            "--help" | "" => return Err(USAGE.into()),
            flag if flag.starts_with('-') => return Err(format!("no such flag: {flag}\n{USAGE}")),
            _ if arguments.row.is_empty() => arguments.row = word,
            _ => return Err(format!("more than one row: {word}\n{USAGE}")),
        }
    }
    Ok(arguments)
}

/// What is said where no row's name starts with the word.
pub fn no_such_row(row: &str, names: &[&str]) -> String {
    format!("no such row: {row}\n{USAGE}\nrows:\n  {}", names.join("\n  "))
}

#[cfg(test)]
mod tests {
    use super::*;

    fn given(words: &[&str]) -> Result<Arguments, String> {
        read(words.iter().map(|word| word.to_string()))
    }

    #[test]
    fn no_words_measure_everything() {
        assert_eq!(given(&[]), Ok(Arguments::default()));
    }

    #[test]
    fn flags_and_a_row_in_any_order() {
        let all = Arguments { smoke: true, growth: true, row: "10 blocks".into() };
        assert_eq!(given(&["--smoke", "10 blocks", "--growth"]).as_ref(), Ok(&all));
        assert_eq!(given(&["--growth", "--smoke", "10 blocks"]).as_ref(), Ok(&all));
        let smoke = Arguments { smoke: true, ..Arguments::default() };
        assert_eq!(given(&["--smoke"]), Ok(smoke));
    }

    #[test]
    fn anything_else_is_answered_by_the_usage() {
        for words in
            [&["--help"][..], &["-h"], &["--smoke", "--fast"], &["large", "typical"], &[""]]
        {
            let said = given(words).expect_err("the words are wrong");
            assert!(said.ends_with(USAGE), "{words:?}: {said}");
        }
        assert!(given(&["--fast"]).is_err_and(|said| said.starts_with("no such flag: --fast\n")));
        let two = given(&["large", "typical"]);
        assert!(two.is_err_and(|said| said.starts_with("more than one row: typical\n")));
    }

    #[test]
    fn an_unknown_row_is_answered_by_the_rows() {
        let said = no_such_row("tiny", &["large", "typical"]);
        assert!(said.starts_with("no such row: tiny\nusage: "), "{said}");
        assert!(said.ends_with("rows:\n  large\n  typical"), "{said}");
    }
}
