// @generated from proved source. It is not edited.

mod from_text;
