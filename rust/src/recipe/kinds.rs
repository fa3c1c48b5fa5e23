//! Which kind of colour a recipe gives: docs/LAW.md's table.

use super::bytes::Step;
use super::{Kind, Recipe};
use alloc::vec::Vec;

impl Recipe {
    /// The kind of the result, where the source is of this kind.
    ///
    /// `None` where there is no result of any kind: a recipe without steps, one whose slots are wrong, and one with
    /// a step that takes another kind than its input has. [`Recipe::run`] says which.
    ///
    /// ```
    /// use nuprikhen::morphology::MorphologyOperator::Dilate;
    /// use nuprikhen::recipe::{Kind, Recipe};
    ///
    /// let dilated = Recipe::new().morphology(0, 1, Dilate, 1.0, 0.0);
    /// assert_eq!(dilated.result_kind(Kind::Premultiplied), Some(Kind::Premultiplied));
    /// assert_eq!(dilated.result_kind(Kind::Straight), None);
    /// ```
    #[must_use]
    pub fn result_kind(&self, source: Kind) -> Option<Kind> {
        let mut slots = [Some(source), None, None, None];
        let mut last = None;
        for step in &self.steps {
            let (inputs, output) = step.slots();
            let kind = |slot: &u32| *slots.get(*slot as usize)?;
            let kinds: Vec<Kind> = inputs.iter().map(kind).collect::<Option<_>>()?;
            if output == 0 || inputs.contains(&output) {
                return None;
            }
            last = Some(given(step, &kinds)?);
            *slots.get_mut(output as usize)? = last;
        }
        last
    }
}

/// The kind of a step's output, where it takes inputs of these kinds.
fn given(step: &Step, inputs: &[Kind]) -> Option<Kind> {
    use Kind::{Premultiplied, Straight};
    let all = |kind, gives| inputs.iter().all(|&input| input == kind).then_some(gives);
    match step.code() {
        1 | 4 => all(Premultiplied, Premultiplied),
        2 | 3 => all(Straight, Straight),
        5 if step.preserves_alpha() => all(Straight, Premultiplied),
        5 => all(Premultiplied, Premultiplied),
        6 => (inputs[1] == Straight).then_some(inputs[0]),
        9 => Some(Premultiplied),
        _ => Some(Straight),
    }
}
