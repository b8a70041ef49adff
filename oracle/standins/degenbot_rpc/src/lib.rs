//! A stand-in for degenbot_rpc: the feed event, a plain struct with the fields that the published files fill in.
pub mod backrun_feed {
    use alloy::primitives::{Address, Bytes, B256, U256};

    #[derive(Debug, Clone)]
    pub struct BackrunFeedEvent {
        pub chain_id: u64,
        pub from: Address,
        pub to: Option<Address>,
        pub value: U256,
        pub data: Bytes,
        pub gas: u64,
        pub max_fee_per_gas: u128,
        pub max_priority_fee_per_gas: u128,
        pub nonce: u64,
        pub hash: B256,
        pub access_list: serde_json::Value,
        pub tx_type: u8,
        pub received_unix_ms: u64,
        pub raw_signed_tx: Option<Bytes>,
    }
}
