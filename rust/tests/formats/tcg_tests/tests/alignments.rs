// @generated from proved source. It is not edited.

use crate::support::test::Fail;
use crate::test_support::same;
use crate::uefi_base::Align;
use crate::uefi_tcg::v1::PcrEvent;
use crate::uefi_tcg::v2::PcrEventInputs;

#[test]
fn events_and_inputs_can_start_at_any_byte() -> Result<(), Fail> {
    let alignments = [PcrEvent::alignment(), PcrEventInputs::alignment()];
    same("alignments", &alignments, &[1, 1])
}
