//! The second program: an independent witness of document 01, and of what document 02 adds to it and
//! changes in it, written from their sentences alone.
//!
//! It follows each rule as it is worded, in memory of its own, and touches lent memory only once the answer
//! is known. So a refusal changes nothing, whatever was computed before it.
//!
//! | Name | Subject | File |
//! |---|---|---|
//! | `Refused` | a refusal: its number and what it carries | refusal.rs |
//! | `check` | refusals 1, 2, 3, 4 of a survey | survey.rs |
//! | `rounded`, `cut`, `turn` | whole numbers: the quotient, the cut, twice a signed area | whole.rs |
//! | `mesh`, `triangles_of` | the mesh job; its triangles as a list | mesh.rs, swaps.rs |
//! | `SWEPT`, `FATTER` | the two kinds of mesh | refusal.rs |
//! | `check_mesh`, `height_over`, `lines_over` | a mesh that is handed in, and the jobs over it | supplied.rs |
//! | `hull_sides`, `twice_hull_area` | the hull, without the mesh | hull.rs |
//! | `slopes`, `slopes_of` | the slopes job; p, q, r, s, t of each station as a list | slopes.rs |
//! | `End`, `below_at`, `bracket`, `spot`, `weights` | the curve along a side | curve.rs |
//! | `lines`, `Drawn` | the lines job | lines.rs |
//! | `height`, `Height` | the height job | height.rs |
//! | `Corner`, `Steps`, `coefficients`, `nested` | the numbered steps of the height | height.rs |
//! | `read`, `Read`, `write` | survey text | text.rs |
//! | `program`, `run` | survey text in, contour text out; a program as a process | contour.rs |
//! | `served`, `Served`, `report` | the ground served and unserved; survey text in, the report of it out | served.rs |

mod contour;
mod curve;
mod height;
mod hull;
mod lines;
mod mesh;
mod refusal;
mod served;
mod slopes;
mod supplied;
mod survey;
mod swaps;
mod text;
mod whole;

pub use contour::{block, program, run};
pub use curve::{below_at, bracket, spot, weights, End};
pub use height::{coefficients, height, nested, Corner, Height, Steps};
pub use hull::{hull_sides, twice_hull_area};
pub use lines::{lines, Drawn, Line};
pub use mesh::{mesh, triangles_of};
pub use refusal::{Refused, FATTER, SWEPT};
pub use served::{report, served, Served};
pub use slopes::{slopes, slopes_of};
pub use supplied::{check_mesh, height_over, lines_over};
pub use survey::check;
pub use text::{read, write, Read};
pub use whole::{cut, rounded, turn};
