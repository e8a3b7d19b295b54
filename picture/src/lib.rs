//! A history of the bench drawn as a timeline in SVG, from what the harness answered and from nothing else.

pub mod bars;
pub mod captions;
pub mod columns;
pub mod draw;
pub mod head;
pub mod held;
pub mod lanes;
pub mod legend;
pub mod letters;
pub mod marks;
pub mod reading;
pub mod rows;
pub mod scene;
pub mod sendings;
pub mod shapes;
pub mod style;
pub mod svg;
pub mod tag;
pub mod windows;

use scene::Scene;
use second::judge::Judgement;
use second::pairs::{pair, Trouble};

/// The picture of a history and its answers; `name` stands for a title that the history does not give.
pub fn picture(name: &str, history: &[u8], answers: &[String]) -> Result<String, Vec<Trouble>> {
    Ok(draw::draw(&scene(history, answers)?, name))
}

/// What there is to see in a history and its answers.
pub fn scene(history: &[u8], answers: &[String]) -> Result<Scene, Vec<Trouble>> {
    let pairs = pair(history, answers)?;
    let judgement = Judgement::of(&pairs);
    Ok(Scene::of(&reading::with_captions(history, pairs), &judgement))
}
