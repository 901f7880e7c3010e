//! The lines of the report on one segment.

use crate::controller::Request;
use crate::gateway::Gateway;
use crate::text::Text;

pub struct Lines {
    segment: String,
    text: Text,
}

impl Lines {
    pub fn new(segment: String) -> Lines {
        Lines { segment, text: Text::default() }
    }

    pub fn bytes(&self) -> &[u8] {
        self.text.bytes()
    }

    pub fn line(&mut self, word: &str) -> &mut Text {
        self.text.word(&self.segment).word(word)
    }

    pub fn event(&mut self, bit: u32, node: &str) -> &mut Text {
        self.text.word(&self.segment).number(bit).word(node)
    }

    /// A controller's line ends with the route and the number of its request.
    pub fn end(&mut self, request: Option<Request>, gateway: &Gateway) {
        if let Some(request) = request {
            self.text.word(&gateway.routes[request.route].name).number(request.number);
        }
        self.text.end();
    }
}
