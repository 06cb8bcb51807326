//! The windows of a schedule as a drawing: a row a component, all on one axis
//! of ticks. The windows are those that the verified library gives; whether
//! one sends, receives or works inside is read from the table by the second
//! implementation.

#![forbid(unsafe_code)]

mod axis;
mod drawing;
mod element;
mod scene;

pub use axis::Axis;
pub use scene::{Mark, Scene, Window, Work};

/// The drawing of a scene from one tick to another, both included. What is not
/// said is chosen so that all is seen up to the horizon, or of a refused table
/// the windows that met.
pub fn draw(scene: &Scene, from: Option<u32>, to: Option<u32>) -> String {
    let (first, last) = scene.range();
    let from = from.unwrap_or(first.min(to.unwrap_or(first)));
    let axis = Axis::new(from, to.unwrap_or(last).max(from));
    drawing::whole(scene, &axis)
}
