//! Attributes that keep stack frames small if nothing is optimized.

use super::file::File;

/// Functions that read a header within another, as deep as the input nests them.
const NESTED: &[&str] = &[
    "fill_counter_signatures",
    "fill_header",
    "fill_single_signature",
];

impl File {
    /// Without optimization a frame has a place for each variable of each function that is inlined,
    /// so `inline(always)` holds for optimized code alone. The functions of `NESTED` are inlined in
    /// other code: two frames for a level of the input are smaller than five.
    pub fn frames(&mut self) {
        for at in self.words() {
            if let Some(end) = self.after(at, &["inline", "(", "always", ")"]) {
                self.tokens[at].text = "cfg_attr(not(debug_assertions), inline".into();
                self.tokens[end].text.insert(0, ')');
            }
            if self.is(at, "fn") && NESTED.contains(&self.text(self.next(at))) {
                let begin = match self.prev(at) {
                    close if self.is(close, ")") => self.prev(self.pair[close]),
                    _ => at,
                };
                let attribute = "#[cfg_attr(debug_assertions, inline(always))]\n";
                self.tokens[begin].text.insert_str(0, attribute);
            }
        }
    }
}
