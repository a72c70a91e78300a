// Stand-in for the reference's `metrics`, which is not to be had: records of what `app/transfer.rs` puts into them, and nothing else.
#[derive(Debug, Clone)]
pub struct ExperimentMeta {
    pub experiment_id: String,
    pub protocol: String,
    pub window_size: usize,
    pub chunk_size: usize,
    pub segment_count: usize,
    pub seed: u64,
    pub reverse_seed: u64,
    pub trial_id: usize,
}

#[derive(Debug, Clone)]
pub struct ForwardChannelConfig {
    pub configured_loss_rate: f64,
    pub configured_reorder_rate: f64,
    pub configured_duplicate_rate: f64,
    pub configured_corrupt_rate: f64,
    pub base_delay_ms: u64,
    pub jitter_ms: u64,
    pub reorder_extra_ms: u64,
}

pub type ReverseChannelConfig = ForwardChannelConfig;

#[derive(Debug, Clone)]
pub struct RtoParameters {
    pub rto_multiplier: f64,
    pub initial_rto_ms: f64,
    pub min_rto_ms: f64,
    pub max_rto_ms: f64,
    pub alpha: f64,
    pub beta: f64,
    pub k: f64,
}

#[derive(Debug, Clone)]
pub struct ApplicationMetrics {
    pub source_bytes: u64,
    pub delivered_unique_bytes: u64,
    pub transfer_status: String,
    pub sha256_match: bool,
    pub source_sha256: String,
    pub delivered_sha256: String,
}

#[derive(Debug, Clone)]
pub struct TimingMetrics {
    pub duration_secs: f64,
    pub total_rtt_samples: usize,
    pub karn_rejected_count: usize,
    pub min_rtt_ms: f64,
    pub max_rtt_ms: f64,
    pub mean_rtt_ms: f64,
    pub final_srtt_ms: f64,
    pub final_rttvar_ms: f64,
    pub final_rto_ms: f64,
    pub timeout_count: usize,
    pub backoff_count: usize,
}

#[derive(Debug, Clone, Default)]
pub struct ProtocolMetrics {
    pub data_sent: usize,
    pub ack_sent: usize,
    pub data_received: usize,
    pub ack_received: usize,
    pub data_retransmissions: usize,
    pub timeout_retransmissions: usize,
    pub premature_retransmissions: usize,
    pub duplicate_data_received: usize,
    pub duplicate_acks_received: usize,
}

#[derive(Debug, Clone, Default)]
pub struct ChannelMetrics {
    pub offered_datagrams: usize,
    pub dropped_datagrams: usize,
    pub duplicated_datagrams: usize,
    pub corrupted_datagrams: usize,
    pub reordered_datagrams: usize,
    pub scheduled_deliveries: usize,
}

#[derive(Debug, Clone)]
pub struct ExperimentMeasurements {
    pub app: ApplicationMetrics,
    pub timing: TimingMetrics,
    pub protocol: ProtocolMetrics,
    pub channel: ChannelMetrics,
    pub reverse_channel: ChannelMetrics,
}

#[derive(Debug, Clone)]
pub struct ExperimentRecord {
    pub meta: ExperimentMeta,
    pub forward: ForwardChannelConfig,
    pub reverse: ReverseChannelConfig,
    pub rto: RtoParameters,
    pub measurements: ExperimentMeasurements,
}

impl ExperimentRecord {
    pub fn new(meta: ExperimentMeta, forward: ForwardChannelConfig, reverse: ReverseChannelConfig, rto: RtoParameters, measurements: ExperimentMeasurements) -> Self {
        ExperimentRecord { meta, forward, reverse, rto, measurements }
    }
}
