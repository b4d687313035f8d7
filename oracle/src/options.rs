//! The words of a command line.

/// The options that a program knows, and the words it was given.
pub struct Options {
    usage: &'static str,
    words: Vec<String>,
}

impl Options {
    /// Reads the command line; a word that the usage does not name ends the program.
    pub fn read(usage: &'static str) -> Options {
        let words: Vec<String> = std::env::args().skip(1).collect();
        let options = Options { usage, words };
        for word in &options.words {
            let known = usage.split([' ', '[', ']', '|']).any(|known| known == word);
            if word.parse::<u64>().is_err() && !known {
                options.stop(word);
            }
        }
        options
    }

    fn stop(&self, word: &str) -> ! {
        eprintln!("{word}: not understood\nusage: {}", self.usage);
        std::process::exit(2)
    }

    pub fn has(&self, name: &str) -> bool {
        self.words.iter().any(|word| word == name)
    }

    /// The word behind a name.
    pub fn word(&self, name: &str) -> Option<&str> {
        let at = self.words.iter().position(|word| word == name)?;
        let word = self.words.get(at + 1).map(String::as_str);
        Some(word.unwrap_or_else(|| self.stop(name)))
    }

    /// The number behind a name.
    pub fn number(&self, name: &str) -> Option<u64> {
        let number = self.word(name)?.parse().ok();
        Some(number.unwrap_or_else(|| self.stop(name)))
    }
}
