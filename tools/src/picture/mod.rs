//! A list as a picture: time to the right, a lane for each thread with its stack of areas, a lane for
//! each scope that is ever made with its used words and its size.

mod colours;
mod drawing;
mod glyphs;
mod layout;
mod legend;
mod makings;
mod scopes;
mod svg;
mod threads;
pub mod timeline;

use crate::answers::Exchange;

/// The SVG of a list with its answers. Fails where an answer is not the second implementation's, which
/// the picture rests on.
pub fn draw(exchanges: &[Exchange]) -> Result<String, String> {
    let timeline = timeline::follow(exchanges)?;
    Ok(drawing::draw(&timeline, exchanges))
}
