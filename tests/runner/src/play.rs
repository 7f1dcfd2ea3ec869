//! Library and second model side by side, and beside them tables into which every picture is read back.

use crate::crash;
use crate::layout;
use crate::library::{Library, CELLS};
use second_model::{answer, Call, Model, Outcome, Slip, PICTURE_BYTES};

pub struct Bench {
    pub library: Library,
    pub model: Model,
    /// The tables as the last call left them.
    before: Vec<u64>,
    /// Other tables, for the pictures.
    pub copy: Library,
}

pub const PICTURE: Call = Call::Picture { bytes: PICTURE_BYTES };

/// A call on which the two differ.
#[derive(Debug, Clone)]
pub struct Difference {
    pub library: Option<Outcome>,
    pub model: Outcome,
    pub what: String,
}

impl Bench {
    pub fn new(slip: Option<Slip>) -> Bench {
        crash::begun(1);
        let library = Library::made();
        let before = library.tables().to_vec();
        Bench { library, model: Model::new(slip), before, copy: Library::unmade() }
    }

    /// Starts a new history: newly made tables on both sides, over whatever the last one left.
    pub fn make(&mut self) {
        crash::begun(1);
        assert_eq!(self.library.init(CELLS), Ok(0), "init");
        self.before.copy_from_slice(self.library.tables());
        self.model = Model::new(self.model.slip);
        assert_eq!(layout::differs(self.library.tables(), &self.model.state), None, "newly made tables");
    }

    /// Writes the next ticket on both sides: an age that no history here can reach by calls.
    pub fn write_next(&mut self, next: u64) {
        crash::begun(next);
        self.library.tables_mut()[0] = next;
        self.before[0] = next;
        self.model.state.next = next;
    }

    /// One call on both, and then the picture of both, which is read back; what both answered to the call.
    pub fn step(&mut self, call: &Call) -> Result<Outcome, Box<Difference>> {
        crash::step(call);
        let outcome = self.call(call)?;
        let picture = self.call(&PICTURE).map_err(|later| later.what);
        match picture.and_then(|picture| self.round_trip(picture.text)) {
            Ok(()) => Ok(outcome),
            Err(later) => {
                let what = format!("afterwards: {later}");
                Err(Box::new(Difference { library: Some(outcome.clone()), model: outcome, what }))
            }
        }
    }

    /// Over garbage, the picture makes tables that hold what the model holds, and that have this picture.
    fn round_trip(&mut self, text: Vec<u8>) -> Result<(), String> {
        self.copy.fence = self.library.fence;
        self.copy.fill_with_garbage();
        let reading = Call::Restore { text };
        let restored = self.copy.play(&reading)?;
        if restored != Outcome::answer(answer::DONE) {
            return Err(format!("its own picture is refused: {} {}", restored.answer, restored.numbers[0]));
        }
        let again = self.copy.play(&PICTURE)?;
        if let Some(what) = layout::differs_placed(self.copy.tables(), &self.model.state) {
            return Err(format!("read back: {what}"));
        }
        if again.text != reading.text() {
            return Err("read back and written again, the picture is another".into());
        }
        Ok(())
    }

    fn call(&mut self, call: &Call) -> Result<Outcome, Box<Difference>> {
        let model = self.model.step(call);
        let library = match self.library.play(call) {
            Ok(outcome) => outcome,
            Err(what) => return Err(Box::new(Difference { library: None, model, what })),
        };
        match self.compare(call, &library, &model) {
            None => Ok(library),
            Some(what) => Err(Box::new(Difference { library: Some(library), model, what })),
        }
    }

    fn compare(&mut self, call: &Call, library: &Outcome, model: &Outcome) -> Option<String> {
        if library != model {
            return Some(outcomes_differ(library, model));
        }
        let tables = self.library.tables();
        if answer::is_refusal(library.answer) || matches!(call, Call::Picture { .. }) {
            return (tables != &self.before[..]).then(|| "tables written by a refused call or a picture".into());
        }
        let differs = layout::differs(tables, &self.model.state);
        self.before.copy_from_slice(tables);
        differs
    }
}

fn outcomes_differ(library: &Outcome, model: &Outcome) -> String {
    if library.text == model.text {
        return "the answer".into();
    }
    let mut both = lines(library).zip(lines(model)).enumerate();
    let (at, (heard, due)) = both.find(|(_, (heard, due))| heard != due).expect("a differing line");
    format!("line {} of the picture: library {heard:?}, model {due:?}", at + 1)
}

/// The text's lines, and none ever after.
fn lines(outcome: &Outcome) -> impl Iterator<Item = Option<String>> + '_ {
    let line = |bytes: &[u8]| Some(String::from_utf8_lossy(bytes).into_owned());
    outcome.text.split(|&byte| byte == b'\n').map(line).chain(std::iter::repeat(None))
}
