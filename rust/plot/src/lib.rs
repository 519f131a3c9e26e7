//! Plot registers and their rules, over the proved static library of the crate
//! `c_api`.
//!
//! A [`Register`] is a table of records whose cells may be unfilled. A chain such
//! as `M[A[A[u]]]` is read at a record by following its references. A rules text
//! reads chains and writes cells; [`Text::check`] checks it for a register, and
//! then it can be run. Where there is no result there is a numbered [`Refusal`].
//!
//! ```
//! use plot::{Machine, Register, Sizes, Text};
//!
//! // A: the record that this one is measured from. M: centimetres, or a gap.
//! let sizes = Sizes { records: 3, references: 1, measures: 1 };
//! let register = Register::from_cells(
//!     sizes,
//!     &[Some(1), None, Some(2), Some(0), None, Some(180)],
//! )?;
//! assert_eq!(register.read("M[A[A[u]]]", 0)?, Some(180));
//!
//! let text = Text::check(&register, "step\nM[u] := M[A[A[u]]]\nend\n")?;
//! assert_eq!(text.plan(1)?.exchanges(), 3);
//!
//! let run = text.run(Machine::Messages, 1000);
//! assert_eq!((run.finished, run.exchanges, run.messages), (1, 3, 4));
//! assert_eq!(run.register.cell(0, 'M').unwrap().to_string(), "180~");
//! // Record 1 reads nothing, and keeps its 0.
//! assert_eq!(run.register.cell(1, 'M').unwrap().to_string(), "0");
//! # Ok::<(), plot::Refusal>(())
//! ```
//!
//! A call needs up to about 750 KB of stack; the main thread and a thread that Rust
//! starts by default have more.
//!
//! The module [`lent`] has the library's own functions, one for one, with the
//! answer and all arrays lent by the caller.

pub mod lent;
mod path;
mod plan;
mod refusal;
mod register;
mod run;
mod text;

pub use path::{Hop, Path};
pub use plan::{Line, LineKind, Plan};
pub use refusal::{Kind, Refusal};
pub use register::{Cell, Register, Sizes};
pub use run::{End, Machine, Run};
pub use text::{Messages, Text};
