//! A hart saved as a text and read back, and texts converted from form to form.

use crate::answer::Refusal;
use crate::form::Form;
use crate::hart::Hart;
use crate::map::Map;

/// Writes a hart's text to the start of the buffer and leaves the bytes past it. A
/// refusal leaves them all.
pub fn save(form: Form, hart: &Hart, buffer: &mut [u8]) -> Result<(), Refusal> {
    if !hart.can_hold() {
        return Err(Refusal::State);
    }
    write(form, hart, buffer)
}

/// Reads a text back, with the map of its protection registers. What has no line is 0.
pub fn restore(form: Form, text: &[u8]) -> Result<(Hart, Map), Refusal> {
    let hart = read(form, text)?;
    Ok((hart, hart.compile()))
}

/// Reads a text of the other form and writes it in this one, as `save` does.
pub fn convert(to: Form, text: &[u8], buffer: &mut [u8]) -> Result<(), Refusal> {
    let hart = read(to.other(), text)?;
    write(to, &hart, buffer)
}

fn read(form: Form, text: &[u8]) -> Result<Hart, Refusal> {
    let hart = Hart::from_words(&form.read(text).ok_or(Refusal::Form)?);
    let held = hart.can_hold() && hart.has_text(form);
    if held { Ok(hart) } else { Err(Refusal::TextState) }
}

/// The hart is one that can be held.
fn write(form: Form, hart: &Hart, buffer: &mut [u8]) -> Result<(), Refusal> {
    let text = buffer.get_mut(..form.length()).ok_or(Refusal::Buffer)?;
    if !hart.has_text(form) {
        return Err(Refusal::NoText);
    }
    form.write(&hart.to_words(), text);
    Ok(())
}
