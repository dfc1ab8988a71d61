// @generated from proved source. It is not edited.

/// Where the text of a node is.
#[derive(Clone, Copy, Debug)]
pub(crate) enum Place {
    /// At the start of a text.
    Start,
    /// After the comma that ends an instance.
    AfterComma,
    /// After another node.
    AfterNode,
}
