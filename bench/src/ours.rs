//! This library by its C interface, over buffers that are made once.
use aslapush::CACHE_WORDS;

unsafe extern "C" {
    fn aslapush_parse_lp_cmd_line(
        units: *const u16, units_len: usize, exe_name: *const u16, exe_name_len: usize, text: *mut u16, text_len: usize, spans: *mut u32,
        spans_len: usize, answer: *mut [u64; 4],
    ) -> u32;
    fn aslapush_make_command_line(
        program: *const u16, program_len: usize, records: *const u32, records_len: usize, text: *const u16, text_len: usize, force_quotes: u32,
        out: *mut u16, out_len: usize, answer: *mut [u64; 4],
    ) -> u32;
    fn aslapush_make_bat_command_line(
        script: *const u16, script_len: usize, records: *const u32, records_len: usize, text: *const u16, text_len: usize, force_quotes: u32,
        out: *mut u16, out_len: usize, answer: *mut [u64; 4],
    ) -> u32;
    fn aslapush_make_envp(
        records: *const u32, records_len: usize, text: *const u16, text_len: usize, out: *mut u16, out_len: usize, answer: *mut [u64; 4],
    ) -> u32;
    fn aslapush_read_envp(block: *const u16, block_len: usize, spans: *mut u32, spans_len: usize, answer: *mut [u64; 4]) -> u32;
    fn aslapush_status_text(status: u32, out: *mut u16, out_len: usize, answer: *mut [u64; 4]) -> u32;
    fn aslapush_cache_make(index: *mut [u64; CACHE_WORDS]);
    fn aslapush_cache_clear(index: *mut [u64; CACHE_WORDS]);
    fn aslapush_cache_lookup(
        index: *const [u64; CACHE_WORDS], units: *const u16, units_len: usize, fingerprint: u64, program: *const u16, program_len: usize,
        records: *const u32, records_len: usize, text: *const u16, text_len: usize, force_quotes: u32, answer: *mut [u64; 5],
    ) -> u32;
    fn aslapush_cache_store(
        index: *mut [u64; CACHE_WORDS], units: *mut u16, units_len: usize, fingerprint: u64, program: *const u16, program_len: usize,
        records: *const u32, records_len: usize, text: *const u16, text_len: usize, force_quotes: u32, answer: *mut [u64; 5],
    ) -> u32;
}

/// Flat records and their text.
pub struct Flat {
    records: Vec<u32>,
    text: Vec<u16>,
}

impl Flat {
    /// Regular arguments, three numbers each.
    pub fn new(args: &[Vec<u16>]) -> Flat {
        let mut flat = Flat { records: vec![], text: vec![] };
        for a in args {
            flat.records.extend([0, flat.text.len() as u32, a.len() as u32]);
            flat.text.extend(a);
        }
        flat
    }

    /// Entries, four numbers each.
    pub fn of_entries(entries: &[(Vec<u16>, Vec<u16>)]) -> Flat {
        let mut flat = Flat { records: vec![], text: vec![] };
        for part in entries.iter().flat_map(|(k, v)| [k, v]) {
            flat.records.extend([flat.text.len() as u32, part.len() as u32]);
            flat.text.extend(part);
        }
        flat
    }
}

/// What is lent: not cleared between calls.
pub struct Buffers {
    out: Vec<u16>,
    spans: Vec<u32>,
}

impl Buffers {
    pub fn new() -> Buffers {
        Buffers { out: vec![0; aslapush::BLOCK_UNITS], spans: vec![0; 87_376] }
    }

    fn built(&self, number: u32, answer: [u64; 4]) -> &[u16] {
        assert_eq!(number, 0);
        &self.out[..answer[2] as usize]
    }

    pub fn line(&mut self, program: &[u16], flat: &Flat, force: bool) -> &[u16] {
        let mut answer = [0; 4];
        let number = unsafe {
            aslapush_make_command_line(
                program.as_ptr(), program.len(), flat.records.as_ptr(), flat.records.len(), flat.text.as_ptr(), flat.text.len(), force as u32,
                self.out.as_mut_ptr(), self.out.len(), &mut answer,
            )
        };
        self.built(number, answer)
    }

    pub fn batch(&mut self, script: &[u16], flat: &Flat, force: bool) -> &[u16] {
        let mut answer = [0; 4];
        let number = unsafe {
            aslapush_make_bat_command_line(
                script.as_ptr(), script.len(), flat.records.as_ptr(), flat.records.len(), flat.text.as_ptr(), flat.text.len(), force as u32,
                self.out.as_mut_ptr(), self.out.len(), &mut answer,
            )
        };
        self.built(number, answer)
    }

    pub fn block(&mut self, flat: &Flat) -> &[u16] {
        let mut answer = [0; 4];
        let number = unsafe {
            aslapush_make_envp(
                flat.records.as_ptr(), flat.records.len(), flat.text.as_ptr(), flat.text.len(), self.out.as_mut_ptr(), self.out.len(), &mut answer,
            )
        };
        self.built(number, answer)
    }

    /// How many entries a block has, and how many units they take.
    pub fn entries(&mut self, block: &[u16]) -> (usize, usize) {
        let mut answer = [0; 4];
        let number = unsafe { aslapush_read_envp(block.as_ptr(), block.len(), self.spans.as_mut_ptr(), self.spans.len(), &mut answer) };
        assert_eq!(number, 0);
        (answer[1] as usize, answer[2] as usize)
    }

    pub fn status(&mut self, status: u32) -> usize {
        let mut answer = [0; 4];
        let number = unsafe { aslapush_status_text(status, self.out.as_mut_ptr(), self.out.len(), &mut answer) };
        self.built(number, answer).len()
    }

    pub fn read(&mut self, line: &[u16]) -> usize {
        let mut answer = [0; 4];
        let number = unsafe {
            aslapush_parse_lp_cmd_line(
                line.as_ptr(), line.len(), line.as_ptr(), 0, self.out.as_mut_ptr(), self.out.len(), self.spans.as_mut_ptr(), self.spans.len(), &mut answer,
            )
        };
        assert_eq!(number, 0);
        answer[1] as usize
    }
}

/// A store of the launch line cache.
pub struct Store {
    index: [u64; CACHE_WORDS],
    units: Vec<u16>,
}

impl Store {
    pub fn new(units: usize) -> Store {
        let mut store = Store { index: [0; CACHE_WORDS], units: vec![0; units] };
        unsafe { aslapush_cache_make(&mut store.index) };
        store
    }

    pub fn clear(&mut self) {
        unsafe { aslapush_cache_clear(&mut self.index) }
    }

    /// The line that a call named, by its number and its answer; none where it missed.
    fn line(&self, number: u32, answer: [u64; 5]) -> Option<&[u16]> {
        assert_eq!(number, 0);
        (answer[1] != 0).then(|| &self.units[answer[2] as usize..][..answer[3] as usize])
    }

    pub fn look(&self, fingerprint: u64, program: &[u16], flat: &Flat) -> Option<&[u16]> {
        let mut answer = [0; 5];
        let number = unsafe {
            aslapush_cache_lookup(
                &self.index, self.units.as_ptr(), self.units.len(), fingerprint, program.as_ptr(), program.len(), flat.records.as_ptr(),
                flat.records.len(), flat.text.as_ptr(), flat.text.len(), 0, &mut answer,
            )
        };
        self.line(number, answer)
    }

    pub fn store(&mut self, fingerprint: u64, program: &[u16], flat: &Flat) -> Option<&[u16]> {
        let mut answer = [0; 5];
        let number = unsafe {
            aslapush_cache_store(
                &mut self.index, self.units.as_mut_ptr(), self.units.len(), fingerprint, program.as_ptr(), program.len(), flat.records.as_ptr(),
                flat.records.len(), flat.text.as_ptr(), flat.text.len(), 0, &mut answer,
            )
        };
        self.line(number, answer)
    }
}
