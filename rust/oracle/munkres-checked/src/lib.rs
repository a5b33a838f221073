// The whole of the published crate, read from its own files, and the question whether a run of it wraps.
include!(env!("ORACLE_SOURCE"));

/// True where the crate's i32 run on this full matrix panics on an overflow. Any other panic goes on.
pub fn wraps(n: usize, costs: &[i32]) -> bool {
    let costs = costs.to_vec();
    let run = std::panic::catch_unwind(move || solve_assignment(&mut WeightMatrix::from_row_vec(n, costs)).is_ok());
    match run {
        Ok(_) => false,
        Err(panic) if said(&*panic).ends_with("with overflow") => true,
        Err(panic) => std::panic::resume_unwind(panic),
    }
}

/// What a panic says.
pub fn said(panic: &(dyn std::any::Any + Send)) -> &str {
    match (panic.downcast_ref::<&str>(), panic.downcast_ref::<String>()) {
        (Some(text), _) => text,
        (_, Some(text)) => text,
        _ => "",
    }
}
