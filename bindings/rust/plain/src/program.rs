//! The program: blocks carried out one by one, at the top of the text and in bodies.

use crate::blocks::{Action, Axes, Block};
use crate::layouts::{Corner, Layout};
use crate::macros::{runs_first, Body, Store, MOST_CALLS};
use crate::mirrors::Symmetry;
use crate::order::Along;
use crate::press::{Point, Press};
use crate::refusal::{Refusal, Refused};
use crate::setting::Setting;
use crate::text::{Line, Text};
use crate::words::Words;

/// The most blocks that are carried out.
const MOST_BLOCKS: u32 = 100_000;

/// How far the program has come.
#[derive(Clone, Copy, PartialEq)]
enum Stage {
    BeforeG92,
    Running,
    AfterG50,
}

/// A text being expanded.
pub struct Expander<'t, 'l> {
    text: &'t Text,
    words: Words,
    press: Press<'l>,
    stage: Stage,
    /// The line of the block that is judged.
    line: u32,
    /// The blocks that have begun.
    blocks: u32,
    macros: Store,
    layout: Option<Layout>,
    /// The offset of G93.
    offset: Point,
}

impl<'t, 'l> Expander<'t, 'l> {
    pub fn new(setting: Setting, text: &'t Text, press: Press<'l>) -> Expander<'t, 'l> {
        Expander {
            text,
            words: Words::new(setting),
            press,
            stage: Stage::BeforeG92,
            line: 0,
            blocks: 0,
            macros: Store::new(),
            layout: None,
            offset: Point::ZERO,
        }
    }

    /// Carries out the whole text and counts its entries.
    pub fn run(&mut self) -> Result<usize, Refused> {
        match self.run_lines() {
            Ok(()) => Ok(self.press.entries()),
            Err(refusal) => Err(refusal.at(self.line)),
        }
    }

    fn run_lines(&mut self) -> Result<(), Refusal> {
        let mut index = 0;
        while let Some(&line) = self.text.lines().get(index) {
            index = self.run_line(line, index)?;
        }
        if self.stage == Stage::AfterG50 {
            return Ok(());
        }
        self.line = self.text.last_line();
        Err(Refusal::WrongPlace)
    }

    /// Carries out a line outside bodies, with the body that follows it, and gives the index of the next line.
    fn run_line(&mut self, line: Line, index: usize) -> Result<usize, Refusal> {
        self.line = line.number;
        if self.text.first_byte(line) != b'V' {
            self.count_block()?;
        }
        // The block is used where it was read, since copying it takes time.
        let read = Block::read(&mut self.words, self.press.state.given.as_ref(), self.text.bytes(line));
        let block = read.as_ref().map_err(|refusal| *refusal)?;
        self.judge_stage(block)?;
        if let Action::Open(number) = block.action {
            return self.run_opening(index, number);
        }
        self.run_top_block(block)?;
        Ok(index + 1)
    }

    /// Counts a block; refusal 3.
    fn count_block(&mut self) -> Result<(), Refusal> {
        if self.blocks == MOST_BLOCKS {
            return Err(Refusal::TooManyBlocks);
        }
        self.blocks += 1;
        Ok(())
    }

    /// Whether a block may come now: G92 first and once, and nothing after G50; refusal 7.
    fn judge_stage(&self, block: &Block) -> Result<(), Refusal> {
        let is_machine = matches!(block.action, Action::Machine(_));
        match self.stage {
            Stage::BeforeG92 if is_machine => Ok(()),
            Stage::Running if !is_machine => Ok(()),
            _ => Err(Refusal::WrongPlace),
        }
    }

    /// A block that only stands outside bodies, or one that may stand anywhere.
    fn run_top_block(&mut self, block: &Block) -> Result<(), Refusal> {
        match block.action {
            Action::Machine(corner) => {
                self.press.set_machine(corner)?;
                self.stage = Stage::Running;
                Ok(())
            }
            Action::End => {
                self.stage = Stage::AfterG50;
                Ok(())
            }
            Action::Offset(axes) => {
                self.press.choose(block.reading, block.tool);
                self.set_offset(axes)
            }
            Action::Layout(layout) => {
                self.layout = Some(layout);
                self.set_origin()
            }
            Action::Copies { number, along, corner } => self.run_copies(number, along, corner),
            Action::Close(_) => Err(Refusal::UnmatchedMacro),
            _ => self.run_any_block(block, 0),
        }
    }

    /// G93: sets the offset of the axes that it names.
    fn set_offset(&mut self, axes: Axes) -> Result<(), Refusal> {
        self.offset = Point {
            x: axes.x.unwrap_or(self.offset.x),
            y: axes.y.unwrap_or(self.offset.y),
        };
        self.set_origin()
    }

    /// Renews the ordinary origin, the reference of G98 plus the offset of G93; refusal 15.
    fn set_origin(&mut self) -> Result<(), Refusal> {
        let reference = self.layout.map_or(Point::ZERO, |layout| layout.reference);
        let origin = reference.plus(self.offset.x, self.offset.y);
        self.press.state.origin = origin.judged()?;
        Ok(())
    }

    /// A block that may stand anywhere, with so many calls open; in a body, others are refused by 7.
    fn run_any_block(&mut self, block: &Block, open: u32) -> Result<(), Refusal> {
        let press = &mut self.press;
        press.choose(block.reading, block.tool);
        match block.action {
            Action::Punch(axes) => press.punch_at(axes),
            Action::Move(axes) => press.move_to(axes),
            Action::Origin(axes) => press.set_waiting(axes),
            Action::Pattern(pattern, memory) => {
                if let Some(memory) = memory {
                    press.remember(memory, pattern);
                }
                pattern.run(press)
            }
            Action::Memory(number) => press.recall(number)?.run(press),
            Action::Call(number) => self.call(number, open),
            Action::Mirror { number, symmetry } => self.call_mirrored(number, symmetry, open),
            Action::Read => {
                press.state.waiting = None;
                Ok(())
            }
            Action::Mode(mode) => {
                press.state.mode = mode;
                Ok(())
            }
            Action::Stop { is_optional } => press.stop(is_optional),
            Action::Nothing => Ok(()),
            _ => Err(Refusal::WrongPlace),
        }
    }

    /// A U line: finds its body, runs it if it is to run first, stores it, and gives the index after its V line.
    fn run_opening(&mut self, index: usize, number: u8) -> Result<usize, Refusal> {
        let body = Body::find(self.text, &mut self.words, index, number)?;
        self.macros.judge(number, body)?;
        if runs_first(number, self.layout.is_some()) {
            self.run_body(body, 1)?;
        }
        self.macros.put(number, body);
        Ok(body.lines().end + 1)
    }

    /// W: runs a body with the state as it is; refusals 10 and 11.
    fn call(&mut self, number: u8, open: u32) -> Result<(), Refusal> {
        let body = self.macros.get(number)?;
        if open == MOST_CALLS {
            return Err(Refusal::TooManyCalls);
        }
        self.run_body(body, open + 1)
    }

    /// G73: runs a body from the origin on and back to it, with a mirror open; refusals 10 and 11. Not inlined, so that it
    /// takes no time in other blocks.
    #[inline(never)]
    fn call_mirrored(&mut self, number: u8, symmetry: Symmetry, open: u32) -> Result<(), Refusal> {
        let outer = self.press.open_mirror(symmetry);
        self.call(number, open)?;
        self.press.close_mirror(outer);
        Ok(())
    }

    /// Carries out the blocks of a body, with so many calls open.
    fn run_body(&mut self, body: Body, open: u32) -> Result<(), Refusal> {
        for &line in &self.text.lines()[body.lines()] {
            self.line = line.number;
            self.count_block()?;
            let read = Block::read(&mut self.words, self.press.state.given.as_ref(), self.text.bytes(line));
            let block = read.as_ref().map_err(|refusal| *refusal)?;
            self.run_any_block(block, open)?;
        }
        Ok(())
    }

    /// G75, G76: runs a part at each place of the layout, each time from the state found; refusals 10, 13 and 15.
    fn run_copies(&mut self, number: u8, along: Along, corner: Corner) -> Result<(), Refusal> {
        let body = self.macros.get(number)?;
        let layout = self.layout.ok_or(Refusal::NoLayout)?;
        let line = self.line;
        let found = self.press.state;
        layout.visit(found.origin, along, corner, |place| {
            self.line = line;
            let place = place.judged()?;
            if !body.has_blocks() {
                self.press.state.begin_copy(place);
                return Ok(());
            }
            self.press.state = found;
            self.press.state.begin_copy(place);
            self.run_body(body, 1)
        })?;
        self.press.state.origin = found.origin;
        Ok(())
    }
}
