// Prints what linkrun prints, by the run of the unchanged Rust: for compare/linkrun.
use reference::app::transfer::{run_transfer, TransferConfig};
use reference::arq::ProtocolType;
use std::io::Read;
use std::time::Duration;

fn joined<T: ToString>(values: &[T]) -> String {
    if values.is_empty() {
        return "-".to_string();
    }
    values.iter().map(T::to_string).collect::<Vec<_>>().join(",")
}

fn main() {
    let mut file = Vec::new();
    std::io::stdin().read_to_end(&mut file).unwrap();
    if file.len() > 256 {
        println!("long");
        return;
    }
    println!("seq\tagain\tdelays\tfolds");
    if file.is_empty() {
        return;
    }
    let zeros = vec![0.0; 100_000];
    rand::feed(&zeros);
    rand::feed_seed(1, &zeros);
    let output = run_transfer(&TransferConfig {
        payload: file,
        protocol: ProtocolType::SelectiveRepeat,
        window_size: 4,
        chunk_size: 1,
        seed: 0,
        trial_id: 0,
        experiment_id: String::new(),
        loss_rate: 0.0,
        reorder_rate: 0.0,
        duplicate_rate: 0.0,
        corrupt_rate: 0.0,
        base_delay_ms: 5,
        jitter_ms: 0,
        reorder_extra_ms: 0,
        rto_multiplier: 1.0,
        min_rto: Duration::from_secs(1),
        max_rto: Duration::from_secs(60),
        initial_rto: Duration::from_secs(1),
        alpha: 0.125,
        beta: 0.25,
        max_virtual_time: Duration::from_secs(60),
        max_retransmissions: 10,
    });
    for e in &output.forward_events {
        println!("{}\t{}\t{}\t{}", e.seq, u8::from(e.retransmission), joined(&e.delays_ms), joined(&e.copy_folds));
    }
}
