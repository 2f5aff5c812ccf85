use crate::{column_type, Event, Memory, Refusal, State, Taken, Tree, Value};

/// No column's type, which is refused as malformed when its turn comes.
const NO_TYPE: u8 = 255;

/// A writer of features over memory that is lent to it. Its memory is its own while it lives, so what the state uses is kept.
pub struct Writer<'a> {
    state: State,
    memory: Memory<'a>,
    properties: &'a mut [u8],
}

impl<'a> Writer<'a> {
    /// A fresh writer. With `detect` the first type that is seen becomes the declared type; with `promote` a line goes into
    /// a MultiLineString, and a polygon into a MultiPolygon.
    pub fn start(
        declared: u8,
        detect: bool,
        promote: bool,
        memory: Memory<'a>,
        properties: &'a mut [u8],
    ) -> Writer<'a> {
        Writer { state: State::start(declared, detect, promote), memory, properties }
    }

    /// A writer that goes on from a state that was kept, over memory that holds what that state uses.
    pub fn resume(state: State, memory: Memory<'a>, properties: &'a mut [u8]) -> Writer<'a> {
        Writer { state, memory, properties }
    }

    pub fn event(&mut self, event: &Event) -> Result<(), Refusal> {
        self.state.event(&event.to_bytes(), &mut self.memory)
    }

    /// Takes event records of 64 bytes, until one is refused.
    pub fn events(&mut self, events: &[u8]) -> Taken {
        self.state.events(events, &mut self.memory)
    }

    pub fn property(&mut self, column: u32, value: Value) -> Result<(), Refusal> {
        let (column_type, bits, text) = value.parts();
        self.state.property(column, column_type, bits, text, self.properties)
    }

    /// Takes a text as it was typed or sent, for a column type from 11 to 14; any other type is refused as malformed. Where a
    /// String, Json or DateTime is not UTF-8, the refusal has the place. Refused: 15, 16, 11, 6, 12.
    pub fn text(&mut self, column: u32, column_type: u8, text: &[u8]) -> Result<(), Refusal> {
        let column_type = if column_type < column_type::STRING { NO_TYPE } else { column_type };
        self.state.property(column, column_type, 0, text, self.properties)
    }

    /// Ends the feature, which then waits for [`Writer::next_feature`].
    pub fn finish(&mut self) -> Result<Tree<'_>, Refusal> {
        self.state.finish(&mut self.memory)?;
        Ok(self.memory.tree())
    }

    /// Leaves a finished feature behind, and its number: the next feature's first event sets its own.
    pub fn next_feature(&mut self) -> Result<(), Refusal> {
        self.state.next(&mut self.memory)
    }

    pub fn state(&self) -> State {
        self.state
    }

    /// The table and the pools as they stand; a tree once a feature is finished.
    pub fn tree(&self) -> Tree<'_> {
        self.memory.tree()
    }

    /// The bytes of the feature's properties so far.
    pub fn properties(&self) -> &[u8] {
        let used = self.state.property_bytes().min(self.properties.len());
        &self.properties[..used]
    }
}
