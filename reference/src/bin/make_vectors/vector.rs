//! One stored vector.

use std::fs;
use std::io;
use std::path::Path;

use reference::{Form, Hart, Memory, read_memory, replay, write_memory, write_record};

#[derive(Clone)]
pub struct Vector {
    pub name: String,
    pub start: Option<Vec<u8>>,
    pub memory: Option<Vec<u8>>,
    pub trace: Vec<u8>,
}

impl Vector {
    pub fn new(name: &str, start: Option<Vec<u8>>, trace: Vec<u8>) -> Vector {
        Vector { name: name.into(), start, memory: None, trace }
    }

    /// The same with words lent to its steps.
    pub fn with_memory(self, memory: Memory) -> Vector {
        Vector { memory: Some(write_memory(memory)), ..self }
    }

    /// A vector of whole records.
    pub fn of_steps(name: &str, start: Option<&Hart>, steps: &[[u64; 3]]) -> Vector {
        Vector::new(name, start.map(saved), records(steps))
    }

    /// Writes the files of the vector, the expected output made by the model.
    pub fn write(&self, folder: &Path) -> io::Result<()> {
        let folder = folder.join(&self.name);
        fs::create_dir_all(&folder)?;
        for (file, text) in [("start", &self.start), ("memory", &self.memory)] {
            if let Some(text) = text {
                fs::write(folder.join(file), text)?;
            }
        }
        fs::write(folder.join("trace"), &self.trace)?;
        fs::write(folder.join("expected"), self.expected()?)
    }

    fn expected(&self) -> io::Result<Vec<u8>> {
        let mut output = Vec::new();
        let memory = self.memory.as_deref().map(|text| read_memory(text).expect("in the form"));
        let (base, words) = memory.unwrap_or_default();
        let memory = Memory { words: &words, base };
        replay(self.start.as_deref(), memory, &mut &self.trace[..], &mut output)?;
        Ok(output)
    }
}

/// The text of the first form, or of the second where there is none.
pub fn saved(hart: &Hart) -> Vec<u8> {
    let form = if hart.has_text(Form::First) { Form::First } else { Form::Second };
    form.text(&hart.to_words())
}

pub fn records(steps: &[[u64; 3]]) -> Vec<u8> {
    steps.iter().flat_map(|&words| write_record(words)).collect()
}
