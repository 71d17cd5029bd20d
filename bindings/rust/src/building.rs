//! What is built: lines of a program or script and its arguments, and environment blocks.
use crate::flat::Flat;
use crate::{raw, room, Refusal};

/// A line to be built from a program and its arguments.
///
/// A built line keeps the room that was taken for it, which can be twice and in a batch line eight times what the line needs: where many lines are kept,
/// `shrink_to_fit` gives the rest back.
///
/// ```
/// use aslapush::{wide, CommandLine, Refusal};
///
/// let batch = CommandLine::new(&wide("load.bat")).arg(&wide("50%")).build_batch().unwrap();
/// assert_eq!(batch, wide(r#"cmd.exe /e:ON /v:OFF /d /c ""load.bat" "50%%cd:~,%"""#));
/// assert_eq!(CommandLine::new(&wide("p")).arg(&[65, 0]).build(), Err(Refusal::Nul { place: 1 }));
/// ```
#[derive(Debug, Clone, Default)]
pub struct CommandLine {
    program: Vec<u16>,
    args: Flat,
    force_quotes: bool,
}

impl CommandLine {
    /// A line for a program or, built by [`build_batch`](Self::build_batch), for a script.
    pub fn new(program: &[u16]) -> Self {
        CommandLine { program: program.to_vec(), ..Default::default() }
    }

    /// Adds a regular argument: where all are regular and the program has no quote mark, [`parse`](crate::parse) reads it back from the ordinary line as
    /// exactly these units. How `cmd.exe` takes a batch line is not proved.
    pub fn arg(self, text: &[u16]) -> Self {
        self.with(raw::REGULAR, text)
    }

    /// Adds a raw argument: its units are written unchanged, and it is the caller's business how they are read.
    pub fn raw_arg(self, text: &[u16]) -> Self {
        self.with(raw::RAW, text)
    }

    /// Puts every regular argument in quotes.
    pub fn force_quotes(mut self, force: bool) -> Self {
        self.force_quotes = force;
        self
    }

    /// The ordinary line.
    pub fn build(&self) -> Result<Vec<u16>, Refusal> {
        let room = room::for_line(self.program.len(), self.args.units(), self.arguments());
        raw::make_command_line(&self.program, &self.args, self.force_quotes, room)
    }

    /// The line that has cmd.exe run the script.
    pub fn build_batch(&self) -> Result<Vec<u16>, Refusal> {
        let room = room::for_batch_line(self.program.len(), self.args.units(), self.arguments());
        raw::make_bat_command_line(&self.program, &self.args, self.force_quotes, room)
    }

    /// What a line is held by in a [`LineCache`](crate::LineCache).
    pub(crate) fn key(&self) -> raw::Key<'_> {
        raw::Key { program: &self.program, args: &self.args, force_quotes: self.force_quotes }
    }

    /// A record has three numbers: kind, start and length.
    fn with(mut self, kind: u32, text: &[u16]) -> Self {
        self.args.push_number(kind);
        self.args.push_text(text);
        self
    }

    /// How many arguments there are.
    fn arguments(&self) -> usize {
        self.args.numbers() / 3
    }
}

/// An environment block to be built, entries in the order in which they are added; [`read`](Self::read) lists the entries of one.
///
/// ```
/// use aslapush::{wide, EnvironmentBlock};
///
/// let block = EnvironmentBlock::new().entry(&wide("A"), &wide("1")).entry(&wide("B"), &[]).build().unwrap();
/// assert_eq!(block, wide("A=1\0B=\0\0"));
/// ```
#[derive(Debug, Clone, Default)]
pub struct EnvironmentBlock {
    entries: Flat,
}

impl EnvironmentBlock {
    /// A block of no entries.
    pub fn new() -> Self {
        Self::default()
    }

    /// Adds an entry. Key `a` with value `b=c` and key `a=b` with value `c` give one block: `=` in a key is the caller's business.
    pub fn entry(mut self, key: &[u16], value: &[u16]) -> Self {
        self.entries.push_text(key);
        self.entries.push_text(value);
        self
    }

    /// The block.
    pub fn build(&self) -> Result<Vec<u16>, Refusal> {
        let room = room::for_block(self.entries.units(), self.entries.numbers() / 4);
        raw::make_envp(&self.entries, room)
    }
}
