//! The command line.

use crate::show::View;
use std::ffi::OsString;
use std::path::PathBuf;

pub const HELP: &str = r#"manual: searches a manual in plain text with a proved engine, and shows the
finds in its text

usage:
  manual search FILE SEARCH    which sections say yes to the search, and why
      --all                    every match, with what excludes it, also of
                               sections that say no
      --json                   the answers for programs
      --quiet, -q              nothing but the exit status
      --families FAMILIES      words that count as one another, as 'needle' and
                               'needles'; a file, see below
      --color WHEN             colour instead of [..]: always, never or auto,
                               the default: on a terminal without NO_COLOR
  manual words FILE            each word of the manual with its number
  manual encode FILE N         section N in the engine's numbers, 32 bits each,
                               the lowest byte first
  manual encode FILE N SEARCH  the same, and after it the search, as the program
                               ftlist reads them
  manual --help, -h

FILE. Markdown headings begin sections; a heading's words belong to its section,
as a paragraph, and to no sentence. Blank lines part paragraphs; a sentence ends
at . ! or ? before a blank or a line's end, so after 'approx.' too. A word is a
run of letters and digits; large and small letters are alike; there are no
wildcards, and other forms of a word are found by FAMILIES alone. The file is
UTF-8.

FAMILIES. A line of this file is a family, its words parted by blanks:
  needle needles
  bolt bolts screw screws
Each word of a search finds all words of its family, so "screw" finds 'bolts',
also where the manual has no 'screw'. Under 'ftnot' they all exclude. A word is
of one family, and there are at most 2,048 words in all. Blank lines and lines
that begin with # are passed over. The file is UTF-8.

SEARCH. It stands in single quotes, so that the shell leaves the double ones.
Its words are those of XQuery Full Text. A and B are searches:
  "needle bed"               one to eight words in double quotes, side by side
  "bolt" occurs at least N times
                             so many finds of the phrase; also: exactly N,
                             at most N, from N to N
  ftnot A                    without A
  A not in B                 A where it isn't part of B
  A ftand B                  both
  A ftor B                   either
  ( A )                      'occurs' binds most, then 'ftnot', 'not in',
                             'ftand' and 'ftor'; parentheses say otherwise
After a search, or inside parentheses with it, any number of filters:
  same sentence              all finds in one; also: same paragraph
  different sentence         two or more finds, each in a sentence of its own;
                             also: different paragraph
  ordered                    finds in the order of the search
  window N words             all finds within N words
  distance at most N words   so many words between neighbouring finds; also:
                             at least N, exactly N, from N to N
  at start                   a find at the section's start; also: at end
  entire content             the finds are the whole section
Filters work from left to right. A window or a distance makes one find of
several: after it 'ordered' always holds and 'different ..' never, so they stand
before it. 'same sentence' and 'different sentence' drop what is found in a
heading; to look there too take 'same paragraph', a window or a distance.

'occurs' counts the finds of the phrase just before it. Each choice of so many
finds is a match, and many finds have too many choices. Up to seven in a section
'at least N' is answered; beyond that only if N is nearly their number, or more.
A larger number first helps: up to ten finds are answered by
  "bolt" occurs at least 8 times ftor "bolt" occurs at least 3 times
Finds beyond what 'exactly', 'at most' or 'from N to N' allow exclude, and two
too many aren't answered. 'At most 2' of up to seven finds is asked by
  ftnot "bolt" occurs at least 3 times

A section says yes if it has a match that nothing excludes. In 'A ftand ftnot B'
every B of the section excludes; after it a filter leaves only what lies in the
same sentence, in order, within its words, and so on. So a filter may turn a no
into a yes. For 'no B within six words of A' take a distance, at most 4 words
between them: it keeps every B that is near. A window may lie where it holds A
and no B, and one such place is enough for a yes.
Shown are finds in [..], excludes in {..}, and the first match that isn't
excluded: it decides.

examples:
  manual search manual.md '"needle bed" ftand "oil"'
  manual search manual.md '"bolt" occurs at least 3 times'
  manual search manual.md '"cam" ftand ftnot "cover" same sentence'
  manual search manual.md '"cam" ftand ftnot "cover" distance at most 4 words'
  manual search --all manual.md '("yarn" ftand "break" ordered) ftor "E12"'
  manual search --families families.txt manual.md '"screw" ftand "cover"'
  manual search --quiet manual.md '"bolt" not in "bolt head"' && echo found
  manual encode manual.md 41 '"cam"' | od -t u4

exit status: 0 if a section says yes, 1 if none does, 2 if the search or the
answer of a section is refused, a file can't be read or is wrong, or the command
is wrong.
"#;

#[derive(Debug, PartialEq, Eq)]
pub enum Command {
    Help,
    Search { file: PathBuf, families: Option<PathBuf>, search: String, output: Output, color: Color },
    Words { file: PathBuf },
    Encode { file: PathBuf, section: usize, search: Option<String> },
}

/// What a search prints.
#[derive(Clone, Copy, Debug, PartialEq, Eq)]
pub enum Output {
    Shown(View),
    Json,
    Quiet,
}

#[derive(Clone, Copy, Debug, PartialEq, Eq)]
pub enum Color {
    Auto,
    Always,
    Never,
}

/// The options that are given; the last one by name.
struct Options {
    help: bool,
    families: Option<PathBuf>,
    output: Option<Output>,
    color: Color,
    last: Option<String>,
}

impl Command {
    /// The command that some arguments give, or what is wrong with them.
    pub fn parse(arguments: impl IntoIterator<Item = OsString>) -> Result<Command, String> {
        let mut options = Options { help: false, families: None, output: None, color: Color::Auto, last: None };
        let mut operands = Vec::new();
        let mut arguments = arguments.into_iter();
        while let Some(argument) = arguments.next() {
            match argument.to_str() {
                Some("--") => operands.extend(arguments.by_ref()),
                Some(option) if option.starts_with('-') && option != "-" => options.read(option, arguments.by_ref())?,
                _ => operands.push(argument),
            }
        }
        if options.help {
            return Ok(Command::Help);
        }
        let Some((name, operands)) = operands.split_first() else {
            return Err("which command? search, words or encode".to_string());
        };
        let command = Command::named(&name.to_string_lossy(), operands, &options)?;
        match (options.last, &command) {
            (None, _) | (_, Command::Search { .. }) => Ok(command),
            (Some(option), _) => Err(format!("only 'search' has an option '{option}'")),
        }
    }

    fn named(name: &str, operands: &[OsString], options: &Options) -> Result<Command, String> {
        match (name, operands) {
            ("search", [file, search]) => Ok(Command::Search {
                file: file.into(),
                families: options.families.clone(),
                search: utf8(search)?,
                output: options.output.unwrap_or(Output::Shown(View::Finds)),
                color: options.color,
            }),
            ("search", _) => Err("'search' takes a file and a search, the whole of it in single quotes".to_string()),
            ("words", [file]) => Ok(Command::Words { file: file.into() }),
            ("words", _) => Err("'words' takes a file".to_string()),
            ("encode", [file, number]) => {
                Ok(Command::Encode { file: file.into(), section: section(number)?, search: None })
            }
            ("encode", [file, number, search]) => {
                Ok(Command::Encode { file: file.into(), section: section(number)?, search: Some(utf8(search)?) })
            }
            ("encode", _) => Err("'encode' takes a file, the number of a section, and a search or none".to_string()),
            _ => Err(format!("unknown command '{name}'")),
        }
    }
}

impl Options {
    fn read(&mut self, option: &str, mut arguments: impl Iterator<Item = OsString>) -> Result<(), String> {
        let (name, value) = option.split_once('=').map_or((option, None), |(name, value)| (name, Some(value.into())));
        match (name, &value) {
            ("--help" | "-h", None) => self.help = true,
            ("--all", None) => self.set_output(Output::Shown(View::AllMatches))?,
            ("--json", None) => self.set_output(Output::Json)?,
            ("--quiet" | "-q", None) => self.set_output(Output::Quiet)?,
            ("--families", _) => self.set_families(value.or_else(|| arguments.next()))?,
            ("--color", _) => self.color = color(value.or_else(|| arguments.next()))?,
            _ => return Err(format!("unknown option '{option}'")),
        }
        self.last = Some(name.to_string());
        Ok(())
    }

    fn set_families(&mut self, file: Option<OsString>) -> Result<(), String> {
        let Some(file) = file.filter(|file| !file.is_empty()) else {
            return Err("--families takes a file".to_string());
        };
        match self.families.replace(file.into()) {
            Some(_) => Err("--families can be given only once".to_string()),
            None => Ok(()),
        }
    }

    fn set_output(&mut self, output: Output) -> Result<(), String> {
        match self.output.replace(output) {
            Some(other) if other != output => Err("of --all, --json and --quiet only one can be given".to_string()),
            _ => Ok(()),
        }
    }
}

fn color(when: Option<OsString>) -> Result<Color, String> {
    match when.as_ref().and_then(|when| when.to_str()) {
        Some("auto") => Ok(Color::Auto),
        Some("always") => Ok(Color::Always),
        Some("never") => Ok(Color::Never),
        _ => Err("--color is auto, always or never".to_string()),
    }
}

fn section(number: &OsString) -> Result<usize, String> {
    let number = number.to_string_lossy();
    number.parse().map_err(|_| format!("'{number}' is not the number of a section"))
}

fn utf8(search: &OsString) -> Result<String, String> {
    search.to_str().map(str::to_string).ok_or("the search is not UTF-8".to_string())
}
