//! Images, what each opens to, and questions for maps, roots, chunks and pages in them, for another
//! program, with what the model says.
//!
//! ```text
//! image NAME BLOCKS       an image begins: so many blocks of zeros
//! keep                    the image as it stands is the base from now on
//! like NAME               an image begins as a copy of the base
//! put PLACE HEX           bytes placed in the image
//! cut BYTES               so many bytes of it are the image
//! edition N               the edition of the questions that follow; 1 where an image begins
//! open                    what the image opens to: `chunk C block B version V`
//! map HEX                 the id of the map with a name: `id N`
//! root ID                 the root of a map: `root POSITION`
//! chunk N                 where a chunk is: `block N`
//! page POSITION ID KIND   the page due for a map of a kind, and its keys: `leaf N` or `inner N`
//! ```
//!
//! An image is answered by its name, a question also by `refused N`. Numbers are decimal.

mod choice;
mod hostile;
mod images;
mod question;
mod sparse;

pub use hostile::{hostile, Path};
pub use images::{images, Asked};
pub use question::Question;
