//! Every rival runs on every workload; what they give is compared when it is made ready.

use answers::with_deep_stack;
use bench::{Prepared, Rival, WORKLOADS};

#[test]
fn all_rivals_run_on_all_workloads() {
    with_deep_stack(|| {
        for workload in &WORKLOADS {
            let mut prepared = Prepared::new(workload, workload.sizes[0]);
            for (_, rival) in Rival::ALL {
                prepared.once(rival);
            }
        }
    });
}
