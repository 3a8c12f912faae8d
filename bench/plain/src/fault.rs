/// Why a file or a rewrite is refused. What is named is the number of a node.
#[derive(Clone, Copy, Debug, PartialEq, Eq)]
pub enum Fault {
    BadHeader,
    BadSizes,
    StoresTooSmall,
    BadRecord(u32),
    BadLink(u32),
    NodesFull(u32),
    EntriesFull(u32),
    TextFull(u32),
}

impl Fault {
    pub fn number(self) -> u32 {
        match self {
            Fault::BadHeader => 1,
            Fault::BadSizes => 2,
            Fault::StoresTooSmall => 3,
            Fault::BadRecord(_) => 4,
            Fault::BadLink(_) => 5,
            Fault::NodesFull(_) => 9,
            Fault::EntriesFull(_) => 10,
            Fault::TextFull(_) => 11,
        }
    }

    pub fn layer(self) -> u32 {
        2
    }

    pub fn node(self) -> u32 {
        match self {
            Fault::BadHeader | Fault::BadSizes | Fault::StoresTooSmall => 0,
            Fault::BadRecord(node)
            | Fault::BadLink(node)
            | Fault::NodesFull(node)
            | Fault::EntriesFull(node)
            | Fault::TextFull(node) => node,
        }
    }
}
