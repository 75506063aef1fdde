//! The command line.

#[derive(Debug, PartialEq, Eq)]
pub enum Command {
    Gate,
    Long {
        seed: u64,
        count: u64,
    },
    Writer {
        seed: u64,
        count: u64,
    },
    /// The second program answers in the driver's place.
    StandIn,
}

#[derive(Debug, PartialEq, Eq)]
pub struct Options {
    pub command: Command,
    pub elements: bool,
    pub listing: bool,
    pub fields: bool,
    pub fans: bool,
    pub removals: bool,
    pub sheets: bool,
    pub hex: bool,
    pub receive: bool,
    pub pairs: bool,
    pub traces: bool,
    pub salvage: bool,
    /// The gate: the writer's calls too.
    pub writer: bool,
    /// The gate: it ends at the first difference.
    pub first: bool,
    /// The driver's program and its arguments, at least one word.
    pub driver: Vec<String>,
}

/// What is given, before it is known to fit together.
#[derive(Default)]
struct Given {
    seed: Option<u64>,
    count: Option<u64>,
    elements: bool,
    listing: bool,
    fields: bool,
    fans: bool,
    removals: bool,
    sheets: bool,
    hex: bool,
    receive: bool,
    pairs: bool,
    traces: bool,
    salvage: bool,
    writer: bool,
    first: bool,
    driver: Vec<String>,
}

fn number(name: &str, word: Option<&String>) -> Result<Option<u64>, String> {
    match word.and_then(|word| word.parse().ok()) {
        Some(number) => Ok(Some(number)),
        None => Err(format!("'{name}' wants a whole number after it")),
    }
}

impl Given {
    fn read(words: &[String]) -> Result<Given, String> {
        let mut given = Given::default();
        let mut words = words.iter();
        while let Some(word) = words.next() {
            match word.as_str() {
                "--seed" => given.seed = number(word, words.next())?,
                "--count" => given.count = number(word, words.next())?,
                "--elements" => given.elements = true,
                "--listing" => given.listing = true,
                "--fields" => given.fields = true,
                "--fans" => given.fans = true,
                "--removals" => given.removals = true,
                "--sheets" => given.sheets = true,
                "--hex" => given.hex = true,
                "--receive" => given.receive = true,
                "--pairs" => given.pairs = true,
                "--traces" => given.traces = true,
                "--salvage" => given.salvage = true,
                "--writer" => given.writer = true,
                "--first" => given.first = true,
                "--driver" => given.driver = words.by_ref().cloned().collect(),
                _ => return Err(format!("'{word}' has no meaning here")),
            }
        }
        Ok(given)
    }
}

impl Options {
    pub fn read(words: &[String]) -> Result<Options, String> {
        let (command, rest) = words.split_first().ok_or("a command is missing")?;
        let given = Given::read(rest)?;
        let command = match (command.as_str(), given.seed, given.count) {
            ("gate", None, None) => Command::Gate,
            ("gate", _, _) => return Err("the gate's seeds and counts are fixed".into()),
            ("long", Some(seed), Some(count)) => Command::Long { seed, count },
            ("writer", Some(seed), Some(count)) => Command::Writer { seed, count },
            ("long" | "writer", _, _) => return Err("'--seed' or '--count' is missing".into()),
            ("stand-in", None, None) if rest.is_empty() => Command::StandIn,
            _ => return Err(format!("there is no command '{command}'")),
        };
        if (given.writer || given.first) && command != Command::Gate {
            return Err("'--writer' and '--first' are for the gate alone".into());
        }
        let of_tables = given.elements || given.listing || given.fields || given.fans;
        let of_tables = of_tables || given.removals || given.sheets || given.hex;
        let of_tables = of_tables || given.receive || given.pairs || given.traces || given.salvage;
        if of_tables && matches!(command, Command::Writer { .. }) {
            return Err("the writer's calls take '--seed' and '--count' alone".into());
        }
        if given.driver.is_empty() && command != Command::StandIn {
            return Err("'--driver' and its command are missing".into());
        }
        Ok(Options {
            command,
            elements: given.elements,
            listing: given.listing,
            fields: given.fields,
            fans: given.fans,
            removals: given.removals,
            sheets: given.sheets,
            hex: given.hex,
            receive: given.receive,
            pairs: given.pairs,
            traces: given.traces,
            salvage: given.salvage,
            writer: given.writer,
            first: given.first,
            driver: given.driver,
        })
    }
}
