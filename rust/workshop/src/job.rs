//! What a command does: it reads what it is given, makes something of it, and
//! writes that.

use outline::text::{write_instructions, write_numbers, write_sheet};
use outline::{picture as drawing, Machine, Outlines, Refusal};

use crate::source::Source;
use crate::target::Target;
use crate::{picture, sheet};

/// What a command takes.
pub enum Given {
    /// A picture whose pixels are so many units wide and high.
    Picture { pixel: i32 },
    /// A sheet.
    Sheet,
}

/// What a command makes.
pub enum Made {
    /// A sheet.
    Sheet,
    /// The numbers of outlines and edges.
    Numbers,
    /// A drawing of the outlines with their numbers.
    Drawing,
    /// A drawing of the way of the blade.
    Blade,
    /// What a machine is told.
    Instructions(Machine),
}

/// A command with all that it needs.
pub struct Job {
    pub given: Given,
    pub made: Made,
    pub source: Source,
    pub target: Target,
}

impl Job {
    /// Does it.
    ///
    /// # Errors
    ///
    /// What went wrong, and where. Nothing is written then.
    pub fn done(&self) -> Result<(), String> {
        let bytes = self.source.read()?;
        let outlines = match self.given {
            Given::Picture { pixel } => picture::outlines(&bytes, pixel),
            Given::Sheet => sheet::outlines(&bytes),
        };
        let made = outlines.and_then(|outlines| self.made.of(&outlines));
        let made = made.map_err(|fault| format!("{}: {}", self.source.name(), fault))?;
        self.target.write(&made)
    }
}

impl Made {
    /// The text that is made of outlines.
    fn of(&self, outlines: &Outlines) -> Result<String, String> {
        let drawn = |drawn: Result<String, Refusal>| drawn.map_err(|refusal| refusal.to_string());
        Ok(match self {
            Made::Sheet => write_sheet(outlines.edges()),
            Made::Numbers => write_numbers(outlines),
            Made::Drawing => drawn(drawing::draw(outlines.edges()))?,
            Made::Blade => drawn(drawing::draw_blade(outlines.edges()))?,
            Made::Instructions(machine) => write_instructions(outlines, *machine),
        })
    }
}
