//! The settings, options of the form `--name number`, and the other arguments.

use second::{Chip, Rules, Settings};

/// Takes `--chip 320` or `--chip 321`, and `--archive`, off the front, each at most once; the 320 and the
/// ordinary rules are meant if none is named. Elsewhere they may not stand.
pub fn settings(arguments: &[String]) -> Result<(Settings, &[String]), String> {
    let mut chip = None;
    let mut rules = None;
    let mut rest = arguments;
    while let Some((option, after)) = rest.split_first() {
        let once = match option.as_str() {
            "--chip" => chip.is_none(),
            "--archive" => rules.is_none(),
            _ => break,
        };
        if !once {
            break;
        }
        rest = after;
        if option == "--chip" {
            chip = Some(named(rest.first())?);
            rest = &rest[1..];
        } else {
            rules = Some(Rules::Archive);
        }
    }
    let ours = |argument: &&String| ["--chip", "--archive"].contains(&argument.as_str());
    match rest.iter().find(ours) {
        Some(option) => Err(format!("'{option}' stands once, right behind the command")),
        None => Ok((
            Settings::new(chip.unwrap_or_default(), rules.unwrap_or_default()),
            rest,
        )),
    }
}

fn named(word: Option<&String>) -> Result<Chip, String> {
    let word = word.ok_or("'--chip' wants 320 or 321 after it")?;
    let named = Chip::BOTH.into_iter().find(|chip| word == chip.digits());
    named.ok_or(format!("there is no chip '{word}', only 320 and 321"))
}

/// The arguments of a command, taken apart.
pub struct Options {
    numbers: Vec<(String, u64)>,
    pub others: Vec<String>,
}

impl Options {
    /// Takes the arguments apart; only the names given are known.
    pub fn read(arguments: &[String], known: &[&str]) -> Result<Options, String> {
        let mut options = Options {
            numbers: Vec::new(),
            others: Vec::new(),
        };
        let mut arguments = arguments.iter();
        while let Some(argument) = arguments.next() {
            let Some(name) = argument.strip_prefix("--") else {
                options.others.push(argument.clone());
                continue;
            };
            if !known.contains(&name) {
                return Err(format!("there is no option '{argument}' here"));
            }
            let number = arguments
                .next()
                .and_then(|value| value.parse().ok())
                .ok_or(format!("'{argument}' wants a whole number after it"))?;
            options.numbers.push((name.to_string(), number));
        }
        Ok(options)
    }

    /// The number of an option that must be given.
    pub fn number(&self, name: &str) -> Result<u64, String> {
        self.numbers
            .iter()
            .rev()
            .find(|(known, _)| known == name)
            .map(|&(_, number)| number)
            .ok_or(format!("'--{name}' is missing"))
    }

    /// Says so when there are arguments that nobody wants.
    pub fn no_others(&self) -> Result<(), String> {
        match self.others.first() {
            None => Ok(()),
            Some(other) => Err(format!("'{other}' is one argument too many")),
        }
    }
}
