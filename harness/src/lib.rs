//! Safe calls to the archive `libjadeshuttle.a`, and the parts that the programs `differ`, `speed` and `signs` and the tests
//! are made of.

pub mod abi;
pub mod call;
pub mod damage;
pub mod draw;
pub mod kinds;
pub mod project;
pub mod random;
pub mod reference;
pub mod self_check;
pub mod session;
pub mod table;
pub mod trials;

// The archive's calls as functions on slices: `plan` (jadeshuttle_plan), `plan_strict` (jadeshuttle_plan_strict), `quick`
// (jadeshuttle_quick), `read_sheet` (jadeshuttle_read_sheet), `charge` (jadeshuttle_charge), `order` (jadeshuttle_order),
// `mill_view` (jadeshuttle_mill_view), `supply_view` (jadeshuttle_supply_view), `day` (jadeshuttle_day) and `pool`
// (jadeshuttle_pool); their answers, and the largest sizes. `build.rs` writes them.
include!(concat!(env!("OUT_DIR"), "/declarations.rs"));

/// The numbers of any call's answer, so that one comparison serves all calls: the five that each answer begins with, and
/// those that follow them.
#[derive(Clone, Debug, Default, PartialEq, Eq)]
pub struct Numbers {
    pub first: Answer,
    pub further: Vec<u64>,
}
