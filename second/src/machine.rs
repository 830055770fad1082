//! The machine: an image in force, cells that outlive calls, and the requests
//! a host makes (refusals 17, 18, 20, 32 and 33).

use std::rc::Rc;

use crate::bounds::bound;
use crate::check::check;
use crate::image::Image;
use crate::interpreter::{run, Outcome};
use crate::refusal::{Code, Refusal};

/// The cells are a slice the host lends; it may hold words past the image's
/// own cells, and those are never touched. A copy shares the image, which no
/// request changes.
#[derive(Clone)]
pub struct Machine {
    image: Option<Rc<Image>>,
    cells: Vec<u32>,
}

impl Machine {
    pub fn new(cell_count: usize) -> Machine {
        Machine { image: None, cells: vec![0; cell_count] }
    }

    /// The host's own write over the whole slice.
    pub fn fill(&mut self, value: u32) {
        self.cells.fill(value);
    }

    pub fn cells(&self) -> &[u32] {
        &self.cells
    }

    /// A refused load keeps the old image and every cell.
    pub fn load(&mut self, bytes: &[u8]) -> Result<(), Refusal> {
        let image = check(bytes)?;
        let Some(own) = self.cells.get_mut(..image.cell_count()) else {
            return Err(Refusal::whole(Code::NoSuchTarget));
        };
        own.fill(0);
        self.image = Some(Rc::new(image));
        Ok(())
    }

    pub fn clear(&mut self) -> Result<(), Refusal> {
        let count = self.image()?.cell_count();
        self.cells[..count].fill(0);
        Ok(())
    }

    pub fn poke(&mut self, array: u32, index: u32, value: u32) -> Result<(), Refusal> {
        let cell = self.cell(array, index)?;
        self.cells[cell] = value;
        Ok(())
    }

    pub fn peek(&self, array: u32, index: u32) -> Result<u32, Refusal> {
        Ok(self.cells[self.cell(array, index)?])
    }

    /// Runs a procedure. After a stop the cells are as before the call.
    pub fn call(
        &mut self,
        procedure: u32,
        budget: u32,
        trace_capacity: u64,
        arguments: &[u32],
    ) -> Result<Outcome, Refusal> {
        let image = self.image.as_deref().ok_or(Refusal::whole(Code::NothingLoaded))?;
        let Some(called) = image.procedures.get(procedure as usize) else {
            return Err(Refusal::whole(Code::NoSuchTarget));
        };
        if arguments.len() != called.parameters as usize {
            return Err(Refusal::whole(Code::ArgumentCount));
        }
        let own = &mut self.cells[..image.cell_count()];
        let before = own.to_vec();
        let outcome = run(image, called, own, budget, trace_capacity, arguments);
        if outcome.end.is_err() {
            own.copy_from_slice(&before);
        }
        Ok(outcome)
    }

    /// The call, made on a copy of the machine.
    pub fn preview(
        &self,
        procedure: u32,
        budget: u32,
        trace_capacity: u64,
        arguments: &[u32],
    ) -> Result<Outcome, Refusal> {
        self.clone().call(procedure, budget, trace_capacity, arguments)
    }

    /// The most steps that a call of the procedure takes. It asks for no cell.
    pub fn bound(&self, procedure: u32) -> Result<u32, Refusal> {
        let image = self.image()?;
        if procedure as usize >= image.procedures.len() {
            return Err(Refusal::whole(Code::NoSuchTarget));
        }
        bound(image, procedure as usize)
    }

    /// The image was checked when it was loaded and has not changed since, so
    /// checking it anew at each request would answer the same.
    fn image(&self) -> Result<&Image, Refusal> {
        self.image.as_deref().ok_or(Refusal::whole(Code::NothingLoaded))
    }

    fn cell(&self, array: u32, index: u32) -> Result<usize, Refusal> {
        match self.image()?.arrays.get(array as usize) {
            Some(array) if index < array.length => Ok((array.base + index) as usize),
            _ => Err(Refusal::whole(Code::NoSuchTarget)),
        }
    }
}
